import { Winch } from 'winch-driver';

export const hold = (bar) => new Winch(bar).brake();
