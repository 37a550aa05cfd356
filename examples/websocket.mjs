// A conversation with a new room `drafts` of `rgatext serve` over WebSockets: each request is one message, and its reply is the
// next message. Node 20 needs --experimental-websocket; later ones need nothing.
const port = process.argv[2];
const conversation = [
  ['{"t":"join"}', '{"n":3,"r":"no"}'],
  ['{"t":"open","room":"other"}', '{"n":4,"r":"no"}'],
  ['{"t":"open","room":"drafts"}', '{"r":"opened"}'],
  ['{"t":"open","room":"drafts"}', '{"n":3,"r":"no"}'],
  ['{"t":"join"}', '{"r":"joined","s":1,"v":0,"x":""}'],
  ['{"t":"ins","s":1,"n":1,"v":0,"k":0,"x":"H\u{1F600}"}', '{"from":0,"r":"ok","to":2}'],
  ['{"t":"read"}', '{"r":"text","v":2,"x":"H\u{1F600}"}'],
];
const socket = new WebSocket(`ws://127.0.0.1:${port}`);
let answered = 0;
socket.onopen = () => conversation.forEach(([request]) => socket.send(request));
socket.onmessage = ({ data }) => {
  const [request, want] = conversation[answered];
  console.log(`> ${request}\n< ${data}`);
  if (data !== want) {
    console.error(`wanted ${want}`);
    process.exit(1);
  }
  if (++answered === conversation.length) socket.close(1000);
};
socket.onclose = ({ code }) => process.exit(answered === conversation.length && code === 1000 ? 0 : 1);
