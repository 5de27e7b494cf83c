importScripts('wgsim-record.js');
importScripts('device.js');
onmessage = async ({ data }) => { if (data.size) { await write(data.size); postMessage('done'); } };
