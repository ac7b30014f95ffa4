// A service worker over both entries that it can import; its address names the one that it uses. It answers a frame's digits with
// the digits of its digest.
import * as fetched from '../../bindings/js/init.js';
import * as inline from '../../bindings/js/inline.js';

const capnp = self.location.search === '?init.js' ? fetched : inline;
self.addEventListener('install', () => self.skipWaiting());
self.addEventListener('message', async (event) => {
  try {
    await capnp.init();
    event.source.postMessage(capnp.digestHex(Uint8Array.from(event.data.match(/../g), (it) => parseInt(it, 16))));
  } catch (error) {
    event.source.postMessage(String(error));
  }
});
