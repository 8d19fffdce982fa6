// Files that are saved, and one that is opened.

export function save_file(name, type, text) {
    const link = document.createElement("a");
    link.href = URL.createObjectURL(new Blob([text], { type }));
    link.download = name;
    link.click();
    setTimeout(() => URL.revokeObjectURL(link.href), 10000);
}

// Calls back with a file that is chosen at one of the inputs, or dropped on the page.
export function on_file(inputs, take) {
    const read = async file => file && take(file);
    for (const input of inputs) {
        input.addEventListener("change", async () => {
            await read(input.files[0]);
            input.value = "";
        });
    }
    addEventListener("dragover", event => event.preventDefault());
    addEventListener("drop", event => {
        event.preventDefault();
        read(event.dataTransfer?.files[0]);
    });
}
