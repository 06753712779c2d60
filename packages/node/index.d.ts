/** Wikitext or HTML: text, or its bytes in UTF-8. */
export type Text = string | Uint8Array;

/** The pages of a wiki by their full names, as `Template:Lang`. */
export type Pages = Record<string, Text> | Map<string, Text>;

export interface Options {
  /** The page's full name; it counts only where the page calls itself. */
  title?: string;
  /** The program; by default that of `BUGHTISO_PROGRAM`, else `wtround` on the `PATH`. */
  program?: string;
}

/** What came of a command. */
export interface Answer {
  /** The program's exit status. */
  status: number;
  /** What it wrote to standard output. */
  out: Buffer;
  /** Its line on standard error, which begins with `wtround: `; empty where there is none. */
  line: string;
}

/** The number of a node: its `id` is `mw` and this number. */
export type NodeNumber = number & { readonly counts: "nodes" };

/** A place in a page: how many bytes of its UTF-8 come before. It is no index into a string. */
export type BytePlace = number & { readonly counts: "bytes before" };

/** How many bytes something has. */
export type ByteCount = number & { readonly counts: "bytes" };

/** Where a node is in its page, with the widths of its two delimiters. */
export interface Range {
  number: NodeNumber;
  kind: string;
  start: BytePlace;
  end: BytePlace;
  open: ByteCount;
  close: ByteCount;
}

/** A doubtful place of a page, such as bold text that nothing closes. */
export interface Finding {
  /** What it is, as `OpenStyle`. */
  kind: string;
  /** Its line, from 1. */
  line: number;
  /** The byte of that line, from 1. */
  column: number;
  /** Its range in the page. */
  start: BytePlace;
  end: BytePlace;
  /** What is wrong, and what to do. */
  sentence: string;
}

/** A page, its HTML or an edit is refused. The message is its sentence. */
export class Refusal extends Error {
  constructor(line: string, status: number);
  /** As `UnmarkedChange`, `PageNotUtf8` or `HtmlRefused`. */
  readonly name: string;
  /** Why, for those refusals that have several reasons, as `Syntax` of `HtmlRefused`. */
  readonly reason: string | null;
  /** Where, counted as `placeIn` says: bytes from 0, elements and children from 1, nodes by the number of their `id`. */
  readonly place: number | null;
  readonly placeIn:
    | "byte of the page"
    | "byte of the template"
    | "byte of the HTML"
    | "element"
    | "node"
    | "child of the body"
    | null;
  /** The full name of the template in which it lies. */
  readonly template: string | null;
  /** What is wrong, and what to do. */
  readonly sentence: string;
  /** The line that the program writes, without `wtround: `. */
  readonly line: string;
  /** The program's exit status, from 1 to 4. */
  readonly status: number;
}

/** The annotated HTML of a page, with its templates. Rejects with a `Refusal`. */
export function html(text: Text, pages?: Pages, options?: Options): Promise<string>;

/** The new wikitext of a page, of which `edited` is the HTML as an editor changed it, with the changed blocks marked. */
export function edit(text: Text, edited: Text, pages?: Pages, options?: Options): Promise<string>;

/** The wikitext of the page for which HTML stands that `html` wrote. */
export function wikitext(source: Text, options?: Options): Promise<string>;

/** The page with its templates expanded. */
export function expand(text: Text, pages?: Pages, options?: Options): Promise<string>;

/** Where each node of the page stands that has a number. */
export function ranges(text: Text, pages?: Pages, options?: Options): Promise<Range[]>;

/** The doubtful places of the page, in the order of their ranges. */
export function lint(text: Text, pages?: Pages, options?: Options): Promise<Finding[]>;

/** The answer to the words of any command, as on the command line. */
export function run(words: string[], input?: Text, pages?: Pages, options?: Options): Promise<Answer>;
