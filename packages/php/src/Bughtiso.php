<?php

declare(strict_types=1);

namespace Bughtiso;

/**
 * Converts between MediaWiki wikitext and annotated HTML for visual editors, and writes edits back byte for byte.
 *
 * Texts are UTF-8. Pages are wikitext by full name, as `Template:Lang`: an array, or an object with `ArrayAccess` that
 * looks each page up.
 */
final class Bughtiso
{
    public readonly Engine $engine;

    /** Over the library where FFI finds it, else over the program. */
    public function __construct(?Engine $engine = null)
    {
        $this->engine = $engine ?? self::found();
    }

    /** The engine that is here: the library, named by BUGHTISO_LIBRARY, else the program, named by BUGHTISO_PROGRAM. */
    private static function found(): Engine
    {
        $library = getenv('BUGHTISO_LIBRARY');
        if (extension_loaded('ffi') && $library !== '') {
            try {
                return new Library($library === false ? 'libwtround.so.0' : $library);
            } catch (\FFI\Exception) {
                // The program does as well.
            }
        }
        return new Program(getenv('BUGHTISO_PROGRAM') ?: 'wtround');
    }

    /**
     * The annotated HTML of a page, with its templates.
     *
     * @param array<string, string>|\ArrayAccess<string, string> $pages
     * @param string                                             $title the page's full name; it counts only where the page
     *                                                                  calls itself
     * @throws Refusal
     */
    public function html(string $text, array|\ArrayAccess $pages = [], string $title = 'Page'): string
    {
        return $this->answer('html', $text, '', $pages, $title);
    }

    /**
     * The new wikitext of a page, of which `$edited` is the HTML as an editor changed it, with the changed blocks marked.
     *
     * @param array<string, string>|\ArrayAccess<string, string> $pages
     * @throws Refusal
     */
    public function edit(string $text, string $edited, array|\ArrayAccess $pages = [], string $title = 'Page'): string
    {
        return $this->answer('edit', $text, $edited, $pages, $title);
    }

    /**
     * The wikitext of the page for which HTML stands that `html` wrote.
     *
     * @throws Refusal
     */
    public function wikitext(string $html): string
    {
        return self::done($this->engine->answer(['wikitext'], $html, []));
    }

    /**
     * The page with its templates expanded.
     *
     * @param array<string, string>|\ArrayAccess<string, string> $pages
     * @throws Refusal
     */
    public function expand(string $text, array|\ArrayAccess $pages = [], string $title = 'Page'): string
    {
        return $this->answer('expand', $text, '', $pages, $title);
    }

    /**
     * Where each node of the page stands that has a number.
     *
     * @param array<string, string>|\ArrayAccess<string, string> $pages
     * @return list<Range>
     * @throws Refusal
     */
    public function ranges(string $text, array|\ArrayAccess $pages = [], string $title = 'Page'): array
    {
        $range = function (string $number, string $kind, string ...$places): Range {
            return new Range((int) substr($number, 2), $kind, ...array_map('intval', $places));
        };
        return array_map(fn (array $fields) => $range(...$fields), $this->fields('ranges', $text, $pages, $title));
    }

    /**
     * The doubtful places of the page, in the order of their ranges.
     *
     * @param array<string, string>|\ArrayAccess<string, string> $pages
     * @return list<Finding>
     * @throws Refusal
     */
    public function lint(string $text, array|\ArrayAccess $pages = [], string $title = 'Page'): array
    {
        $finding = fn (string $kind, string ...$places) => new Finding($kind, ...array_map('intval', $places));
        return array_map(fn (array $fields) => $finding(...$fields), $this->fields('lint', $text, $pages, $title));
    }

    /**
     * The answer to any command, as on the command line.
     *
     * @param list<string>                                       $words
     * @param array<string, string>|\ArrayAccess<string, string> $pages
     */
    public function run(array $words, string $input = '', array|\ArrayAccess $pages = []): Answer
    {
        return $this->engine->answer($words, $input, $pages);
    }

    /** @param array<string, string>|\ArrayAccess<string, string> $pages */
    private function answer(string $command, string $text, string $input, array|\ArrayAccess $pages, string $title): string
    {
        return self::done($this->engine->answer([$command, $title], $input, new WithPage($text, $title, $pages)));
    }

    /**
     * The fields of each line of an answer.
     *
     * @param array<string, string>|\ArrayAccess<string, string> $pages
     * @return list<list<string>>
     */
    private function fields(string $command, string $text, array|\ArrayAccess $pages, string $title): array
    {
        $lines = explode("\n", $this->answer($command, $text, '', $pages, $title));
        return array_map(fn (string $line) => explode(' ', $line), array_slice($lines, 0, -1));
    }

    private static function done(Answer $answer): string
    {
        return match (true) {
            $answer->status === 0 => $answer->out,
            $answer->status >= 1 && $answer->status <= 4 => throw new Refusal($answer->line, $answer->status),
            default => throw new \RuntimeException(trim($answer->line) ?: "wtround ended with status $answer->status"),
        };
    }
}
