// What presence.js has. To a page's other scripts `Presence` is a global.

/** What somebody says of himself: a JSON object of at most 16,384 bytes, whose numbers are whole but with --fractions. */
export type Meta = { [name: string]: unknown };

/** What is told of a key: a meta for each time that it is there, in the order of coming, and what the server adds. */
export interface Told {
  metas: (Meta & { phx_ref: string; phx_ref_prev?: string })[];
  [added: string]: unknown;
}

/**
 * `connecting`: there is no connection, or none any more. `joining`, `joined`: there is one. `refused`: the server said no. If it
 * said `full`, the room is asked for again by itself; else never. `left`: by `leave`, by `close` or by the server, for good.
 */
export type State = "connecting" | "joining" | "joined" | "refused" | "left";

/** Why a room is so: the close code and reason of the connection, or a refusal's reason; and after how many milliseconds it is
 * tried again. */
export interface Why {
  code?: number;
  reason?: string;
  wait?: number;
}

/** What a promise is rejected with. Where the server said no there is its reason, as `full` or `bad payload`; where there is
 * none, the connection was lost, or there was none. */
export interface Refusal extends Error {
  reason?: string;
  code?: number;
}

/** Takes a function in, and answers one that takes it out again. */
export type Callbacks<Words extends unknown[]> = (callback: (...words: Words) => void) => () => void;

export interface Room {
  readonly topic: string;
  readonly state: State;

  /** Who is there, in the order of keys: nobody while the room isn't joined. */
  list(): (Told & { key: string })[];

  /** The list is another one, or has gone. */
  onSync: Callbacks<[]>;
  /** A key is there that wasn't: at first each one, behind a lost connection those that came meanwhile. A changed meta is neither
   * a join nor a leave. */
  onJoin: Callbacks<[key: string, told: Told]>;
  /** A key is there no more. Of those that went while there was no connection it is told some seconds after it is back. */
  onLeave: Callbacks<[key: string, told: Told]>;
  /** Somebody shouted this, perhaps oneself. */
  onShout: Callbacks<[payload: any]>;
  onState: Callbacks<[state: State, why: Why]>;

  /** Shows this client under a key, here and behind each later connection, in the place of what it showed before. While the room
   * isn't joined that is all that is done; else it waits for the answer, and what is refused is taken back. */
  track(key: string, meta?: Meta): Promise<void>;
  /** Shows this client no more. */
  untrack(): Promise<void>;

  /** Says this to all who have joined, this client too. It is done when the server has answered this or something later, four
   * seconds later at most; what it answers, where it does, is the value. */
  shout(payload: unknown): Promise<unknown>;
  /** Sends an event of the room (`ping`, `get`, ..), and waits for the answer in the same way. */
  push(event: string, payload?: unknown): Promise<any>;

  leave(): void;
}

export class Presence {
  /** Connects, and again whenever the connection is lost: at once at first, and then less and less often, up to 30 seconds later.
   * A connection whose server says nothing for two beats of four seconds is lost. `url` is that of the socket, without
   * `/websocket`. `token` gives what signs this client in, for each connection, and before a JSON Web Token ends; where it fails
   * that is a connection that is lost. */
  constructor(url: string, options?: { token?: () => string | undefined | Promise<string | undefined> });

  /** Joins a room, and shows this client in it where there is a key. Another room of this topic is left. */
  join(topic: string, key?: string, meta?: Meta): Room;

  /** Asks for a token now, and shows it to the server. */
  renew(): Promise<unknown>;

  /** Leaves all rooms, and connects no more. */
  close(): void;
}
