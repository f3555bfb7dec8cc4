"use strict";

/** Why a call has no answer: its worker was ended, and may be started again. */
class Stopped extends Error {}

/** Why a call has no answer: its file was closed. */
class Closed extends Error {}

/** Why a call has no answer: the file cannot be taken in, the worker broke down, or what was asked for cannot be done.
 * The kind is one of TEXTS.broken, or the text is one of TEXTS.errors. The message is what the browser says, which the
 * page does not show, since it is in no language that was chosen. */
class Failed extends Error {
    /** @param {string} message @param {string} kind @param {string} [text] @param {string[]} [values] put into it */
    constructor(message, kind, text = "", values = []) {
        super(message);
        this.kind = kind;
        this.text = text;
        this.values = values;
    }
}

/**
 * The one life of the worker of a file. Its states are:
 *
 *     none     there is no worker; the next call has one be started
 *     opening  a worker takes the file in; calls wait for it
 *     ready    it answers calls
 *     failed   it could not take the file in, or broke down: each call is an error, until the file is opened anew
 *     closed   each call is an error, for ever
 *
 * Each call ends with an answer or with an error, and what a worker says that was ended is dropped.
 *
 * @typedef {{ again: () => void, told: (event: any) => void, failed: (error: Failed) => void, rests: () => void }}
 *     Owner who has it started anew, is told what it finds and why it failed, and that it has nothing to do
 * @typedef {{ resolve: (result: any) => void, reject: (error: Error) => void, tell?: Function }} Call
 */
class Life {
    /** @param {string} place where the text of a worker is @param {Owner} owner */
    constructor(place, owner) {
        this.place = place;
        this.owner = owner;
        /** @type {"none" | "opening" | "ready" | "failed" | "closed"} */
        this.state = "none";
        /** @type {Worker | null} */
        this.worker = null;
        /** @type {Map<number, Call>} */
        this.calls = new Map();
        this.asked = 0;
        this.why = new Failed("", "");
    }

    /** Has a new worker take the file in, whatever was before; but not once it is closed.
     * @param {object} words of the call */
    open(words) {
        if (this.state === "closed") {
            return;
        }
        this.end();
        this.state = "opening";
        try {
            this.worker = new Worker(this.place);
        } catch (error) {
            this.fail(new Failed(String(error), "policy"));
            return;
        }
        const { worker } = this;
        const isMine = () => worker === this.worker;
        worker.onmessage = ({ data }) => isMine() && this.take(data);
        worker.onerror = (event) => {
            event.preventDefault();
            if (isMine()) {
                this.fail(new Failed(event.message ?? "", event.message ? "ended" : "policy"));
            }
        };
        worker.onmessageerror = () => isMine() && this.fail(new Failed("", "ended"));
        // A file in which nothing can be read is told by an event, and has nothing to ask for.
        this.post("open", words).then(() => isMine() && this.state === "opening" && this.leave("nothing"),
            (error) => isMine() && this.fail(error));
    }

    /** Asks the worker, which is started where there is none.
     * @param {string} call @param {object} words @param {Function} [tell] @returns {Promise<any>} */
    call(call, words, tell) {
        if (this.state === "none") {
            this.owner.again();
        }
        return this.state === "closed" ? Promise.reject(new Closed("the file is closed"))
            : this.state === "failed" ? Promise.reject(this.why) : this.post(call, words, tell);
    }

    /** @param {string} call @param {object} words @param {Function} [tell] @returns {Promise<any>} */
    post(call, words, tell) {
        const id = ++this.asked;
        return new Promise((resolve, reject) => {
            this.calls.set(id, { resolve, reject, tell });
            this.worker?.postMessage({ ...words, call, id });
        });
    }

    /** @param {any} data */
    take(data) {
        if (data.event === "saving") {
            this.calls.get(data.id)?.tell?.(data.done, data.all);
        } else if (data.event) {
            this.state = data.event === "opened" ? "ready" : this.state;
            this.owner.told(data);
        } else {
            const call = this.calls.get(data.id);
            this.calls.delete(data.id);
            if (data.error === undefined) {
                call?.resolve(data.result);
            } else {
                call?.reject(new Failed(data.error, data.kind, data.text, data.values));
            }
            if (this.isIdle()) {
                this.owner.rests();
            }
        }
    }

    /** Whether there is a worker that has nothing to do. */
    isIdle() {
        return this.worker !== null && this.calls.size === 0;
    }

    /** Ends the worker, whatever it does. */
    end() {
        this.drop(new Stopped("it was stopped"));
        if (this.state === "opening" || this.state === "ready") {
            this.state = "none";
        }
    }

    /** Ends the worker for ever. */
    close() {
        this.state = "closed";
        this.drop(new Closed("the file is closed"));
    }

    /** @param {Failed} error */
    fail(error) {
        // In the browser's own words, for who looks for the reason.
        console.warn(error.message);
        this.leave(error.kind, error);
        this.owner.failed(error);
    }

    /** @param {string} kind @param {Failed} [error] */
    leave(kind, error = new Failed("", kind)) {
        this.state = "failed";
        this.why = error;
        this.drop(error);
    }

    /** Ends the worker; calls that have no answer end with this error.
     * @param {Error} error */
    drop(error) {
        const calls = [...this.calls.values()];
        this.worker?.terminate();
        this.worker = null;
        this.calls.clear();
        for (const { reject } of calls) {
            reject(error);
        }
    }
}
