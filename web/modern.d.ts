// What browsers have and the types of Debian's TypeScript don't know yet.

interface Array<T> {
  toReversed(): T[];
  toSorted(compare?: (a: T, b: T) => number): T[];
  toSpliced(start: number, count: number, ...items: T[]): T[];
}

interface String {
  toWellFormed(): string;
}

interface Selection {
  modify(alter: string, direction: string, granularity: string): void;
}

interface Highlight extends Set<AbstractRange> {
  priority: number;
}

declare const Highlight: { new (...ranges: AbstractRange[]): Highlight };

declare namespace CSS {
  const highlights: Map<string, Highlight>;
}
