import { raise } from './cues/raise.js';
import { hold } from './cues/hold.js';
const speeds = require('./speeds.js');

await raise(3, speeds.slow);
hold(3);
