// A headless browser with one tab, by its command: Chromium, or where the command names it, Firefox.
import path from "node:path";
import { chromium } from "./chromium.mjs";
import { firefox } from "./firefox.mjs";

export function browser(command) {
    return path.basename(command).startsWith("firefox") ? firefox(command) : chromium(command);
}
