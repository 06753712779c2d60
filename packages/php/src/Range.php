<?php

declare(strict_types=1);

namespace Bughtiso;

/** Where a node stands in its page, in bytes. */
final class Range
{
    /**
     * @param int    $number the number of its `id`
     * @param string $kind   what it is, as `p`, `h2` or `group`
     * @param int    $open   the width of its opening delimiter
     * @param int    $close  the width of its closing delimiter
     */
    public function __construct(
        public readonly int $number,
        public readonly string $kind,
        public readonly int $start,
        public readonly int $end,
        public readonly int $open,
        public readonly int $close,
    ) {
    }
}
