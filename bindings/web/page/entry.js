// The page with the module in it, as scripts/web bundles it.
import module from '../out/encoding.wasm';
import { begin } from './main.js';

begin(module);
