import { Winch } from 'winch-driver';

export async function raise(bar, speed) {
  return new Winch(bar).up(speed);
}
