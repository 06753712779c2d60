<?php

declare(strict_types=1);

namespace Bughtiso;

/** A doubtful place of a page, such as bold text that nothing closes. */
final class Finding
{
    /** What is wrong, and what to do. */
    public readonly string $sentence;

    /**
     * @param string $kind   what it is, as `OpenStyle`
     * @param int    $line   its line, from 1
     * @param int    $column the byte of that line, from 1
     * @param int    $start  where it begins in the page, in bytes
     * @param int    $end    where it ends
     */
    public function __construct(
        public readonly string $kind,
        public readonly int $line,
        public readonly int $column,
        public readonly int $start,
        public readonly int $end,
    ) {
        static $sentences = null;
        $sentences ??= json_decode((string) file_get_contents(__DIR__ . '/findings.json'), true, 2, JSON_THROW_ON_ERROR);
        $this->sentence = $sentences[$kind] ?? $kind;
    }
}
