export class Pace {
    constructor(options?: Required<import("./options.js").Options>);
    isHidden: boolean;
    /** Something was done, here or by others. */
    hasNews(): void;
    /** Milliseconds until news is asked for again. */
    next(): number;
    #private;
}
