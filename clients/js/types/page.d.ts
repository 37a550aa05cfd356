/**
 * Tells in an element of the page how a session stands, and asks what the user has to choose. `name` is what the room is called there.
 * @param {Session} session
 * @param {HTMLElement} place
 * @param {{name?: string}} [options]
 */
export function bindStatus(session: Session, place: HTMLElement, options?: {
    name?: string | undefined;
} | undefined): StatusBinding;
/**
 * Asks before text is left that may be lost, leaves the room with the page, which can't wait, goes on where the page comes back, and asks
 * rarely while it is hidden. Gives what unbinds it.
 * @param {Session} session
 */
export function bindPage(session: Session): {
    release: () => void;
};
export type Session = import("./session.js").Session;
declare class StatusBinding {
    constructor(session: any, place: any, { name }?: {
        name?: string | undefined;
    });
    /** Tells what an editor's binding has trouble with, until it is called with an empty text. */
    trouble(trouble: any): void;
    /** Lets go of the session and the element. */
    release(): void;
    #private;
}
export {};
