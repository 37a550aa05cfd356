export class Piece {
    constructor(text: any, owner: any, gone?: null, order?: number, since?: number);
    text: any;
    owner: any;
    gone: any;
    order: number;
    since: number;
    get isShown(): boolean;
    get isRooms(): boolean;
    /** Whether something of it is to be sent, as soon as the room has it. */
    get isNew(): boolean;
    /** Whether the room isn't known to have what became of it here. */
    get isPending(): boolean;
    get isLost(): boolean;
    /** What is between two places, as a piece of its own. */
    part(start: any, end: any): Piece;
    /** Takes what stands behind the place off, and gives it as a piece of its own. */
    cut(place: any): Piece;
    /** Whether both are of one kind, so that they may be one piece. Two of the room's that are long stay two, since a cut copies a piece. */
    isLike(other: any): boolean;
    /**
     * The room lost it: what was put in here is new again, and what others put in stands unseen. Gives whether it is still there: it may have
     * been deleted since.
     */
    lose(isOwn: any): boolean;
    /** Takes in a piece of its kind that stands behind it. */
    join(next: any): void;
}
