
import * as os from "os";
const parent = os.Worker.parent;
parent.onmessage = event => {
    const numbers = [];
    for (let at = event.data.from; at < event.data.to; at++) numbers.push(at * 7919 % 10007);
    numbers.sort((one, other) => one - other);
    parent.postMessage({ number: event.data.number, median: numbers[numbers.length >> 1], root: numbers.reduce((a, b) => a + Math.sqrt(b), 0) });
    parent.onmessage = null;
};
