<?php

declare(strict_types=1);

namespace Bughtiso;

/** Answers commands. */
interface Engine
{
    /**
     * The answer to the words of a command over an input and pages.
     *
     * @param list<string>                                   $words
     * @param array<string, string>|\ArrayAccess<string, string> $pages wikitext by full name
     */
    public function answer(array $words, string $input, array|\ArrayAccess $pages): Answer;
}
