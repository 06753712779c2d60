<?php

declare(strict_types=1);

namespace Bughtiso;

/**
 * The pages of a wiki, and the page of a command in front of them: the one that is asked for first.
 *
 * @internal
 * @implements \ArrayAccess<string, string>
 * @implements \IteratorAggregate<string, string>
 */
final class WithPage implements \ArrayAccess, \IteratorAggregate
{
    private ?string $name = null;

    /** @param array<string, string>|\ArrayAccess<string, string> $pages */
    public function __construct(
        private readonly string $text,
        private readonly string $title,
        private readonly array|\ArrayAccess $pages,
    ) {
    }

    public function offsetExists(mixed $offset): bool
    {
        $this->name ??= $offset;
        return $offset === $this->name || isset($this->pages[$offset]);
    }

    public function offsetGet(mixed $offset): string
    {
        return $offset === $this->name ? $this->text : $this->pages[$offset];
    }

    public function offsetSet(mixed $offset, mixed $value): void
    {
        throw new \LogicException('the pages of a command are only read');
    }

    public function offsetUnset(mixed $offset): void
    {
        throw new \LogicException('the pages of a command are only read');
    }

    /** For the program, which takes the page under its title as it is written, with its first letter raised. */
    public function getIterator(): \Iterator
    {
        $own = ucfirst(trim((string) preg_replace('/[ _]+/', ' ', $this->title)));
        if (!is_iterable($this->pages)) {
            throw new \InvalidArgumentException('the program needs pages that can be walked');
        }
        foreach ($this->pages as $name => $page) {
            // A key of an array that is a number in letters is an `int`.
            if (Program::fileName((string) $name) !== Program::fileName($own)) {
                yield (string) $name => $page;
            }
        }
        yield $own => $this->text;
    }
}
