<?php

declare(strict_types=1);

namespace Bughtiso;

/** A page, its HTML or an edit is refused. The message is its sentence. */
final class Refusal extends \RuntimeException
{
    /** The name of the refusal, as `UnmarkedChange`, `PageNotUtf8` or `HtmlRefused`. */
    public readonly string $name;

    /** Why, for those refusals that have several reasons, as `Syntax` of `HtmlRefused`. */
    public readonly ?string $reason;

    /** Where, counted as `placeIn` says: bytes from 0, elements and children from 1, nodes by the number of their `id`. */
    public readonly ?int $place;

    /** `byte of the page`, `byte of the template`, `byte of the HTML`, `element`, `node` or `child of the body`. */
    public readonly ?string $placeIn;

    /** The full name of the template in which it lies. */
    public readonly ?string $template;

    /** What is wrong, and what to do. */
    public readonly string $sentence;

    /**
     * @param string $line   the line that the program writes, without `wtround: `
     * @param int    $status the program's exit status, from 1 to 4
     */
    public function __construct(string $line, public readonly int $status)
    {
        $line = trim($line);
        $this->refusalLine = str_starts_with($line, 'wtround: ') ? substr($line, strlen('wtround: ')) : $line;
        [$rule, $found] = self::ruleOf($this->refusalLine);
        $why = ($found['why'] ?? '') === '' ? null : $found['why'];
        $this->name = $rule['name'] ?? $why ?? 'Refused';
        $this->reason = isset($rule['name']) ? $why : null;
        $this->template = ($found['title'] ?? '') === '' ? null : $found['title'];
        $this->place = ($found['number'] ?? '') === '' ? null : (int) $found['number'];
        $this->placeIn = $this->place === null ? null : $this->countedIn($rule);
        $this->sentence = $rule['sentence'] ?? $rule['sentences'][$why ?? ''] ?? $this->refusalLine;
        parent::__construct($this->sentence, $status);
    }

    /** The line that the program writes, without `wtround: `. */
    public readonly string $refusalLine;

    /** @param array<string, mixed> $rule */
    private function countedIn(array $rule): ?string
    {
        if ($this->template !== null) {
            return 'byte of the template';
        }
        return $rule['placesIn'][$this->name] ?? $rule['placeIn'] ?? null;
    }

    /** @return array{array<string, mixed>, array<string, string>} the rule that a line follows, and what it found in it */
    private static function ruleOf(string $line): array
    {
        static $rules = null;
        $rules ??= json_decode((string) file_get_contents(__DIR__ . '/refusals.json'), true, 8, JSON_THROW_ON_ERROR);
        foreach ($rules as $rule) {
            if (preg_match('/' . str_replace('/', '\/', $rule['pattern']) . '/Du', $line, $found) === 1) {
                return [$rule, $found];
            }
        }
        return [[], []];
    }
}
