
import * as os from "os";
const answers = [];
for (let number = 0; number < 4; number++) {
    const worker = new os.Worker("./worker.js");
    worker.onmessage = event => {
        answers.push(event.data);
        worker.onmessage = null;
        if (answers.length === 4)
            for (const it of answers.sort((one, other) => one.number - other.number)) console.log(it.number, it.median, it.root);
    };
    worker.postMessage({ number, from: number * 3000, to: number * 3000 + 3000 });
}
console.log(JSON.stringify([0.1, 1e300, 2 ** -1074, 123456789012345680000]), 10n ** 40n, "a,b;c".split(/[,;]/), new Date(0).toISOString());
