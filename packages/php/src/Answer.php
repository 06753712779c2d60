<?php

declare(strict_types=1);

namespace Bughtiso;

/** What came of a command. */
final class Answer
{
    /**
     * @param int    $status the program's exit status
     * @param string $out    what it wrote to standard output
     * @param string $line   its line on standard error, which begins with `wtround: `; empty where there is none
     */
    public function __construct(
        public readonly int $status,
        public readonly string $out,
        public readonly string $line,
    ) {
    }
}
