<?php

// Tests of the package: the stored cases of the repository, where they are, through what is here, and the calls.

declare(strict_types=1);

use Bughtiso\{Bughtiso, Engine, Library, Program, Refusal};

require __DIR__ . '/../autoload.php';

$failures = 0;

function check(bool $good, string $what): void
{
    if (!$good) {
        echo "$what: failed\n";
        $GLOBALS['failures']++;
    }
}

function readBytes(string $field): string
{
    [$digits, $count] = explode('*', "$field*1");
    return str_repeat((string) hex2bin($digits), (int) $count);
}

/** The cases whose devices are those of every call: words, input, pages and the wanted answer. */
function cases(): iterable
{
    $folder = __DIR__ . '/../../../crates/wtround_cases';
    $lines = @fopen("$folder/stdin", 'r');
    $answers = @fopen("$folder/stdout", 'r');
    while ($lines && ($line = fgets($lines)) !== false && ($answer = fgets($answers)) !== false) {
        $fields = explode("\t", rtrim($line, "\n"));
        $wanted = explode("\t", rtrim($answer, "\n"));
        if (count($wanted) < 3 || ($fields[3] ?? '') !== '') {
            continue;
        }
        $pages = [];
        foreach (($fields[2] ?? '') === '' ? [] : explode(',', $fields[2]) as $entry) {
            [$name, $page] = explode('=', $entry);
            $pages[(string) hex2bin($name)] = readBytes($page);
        }
        $words = $fields[0] === '' ? [] : array_map('hex2bin', explode(',', $fields[0]));
        yield [$words, readBytes($fields[1]), $pages, [(int) $wanted[0], hex2bin($wanted[1]), hex2bin($wanted[2])]];
    }
}

/** Whether each of these names can be that of a file, as the program needs it. */
function haveFiles(array $names): bool
{
    return max(0, ...array_map(fn ($name) => strlen(rawurlencode((string) $name)), $names)) <= 250;
}

/** Tries one of `$step` cases. */
function tryCases(Engine $engine, int $step): void
{
    $tried = 0;
    foreach (cases() as $number => [$words, $input, $pages, $wanted]) {
        if ($number % $step !== 0 || ($engine instanceof Program && !haveFiles([...$words, ...array_keys($pages)]))) {
            continue;
        }
        $answer = $engine->answer($words, $input, $pages);
        check([$answer->status, $answer->out, $answer->line] === $wanted, 'case ' . $number . ' ' . implode(' ', $words));
        $tried++;
    }
    echo $tried === 0 ? "stored cases: skipped, there are none here\n" : "$tried stored cases by " . $engine::class . "\n";
}

function tryCalls(Bughtiso $wiki): void
{
    $page = "'''Opava''' is a {{T|town}} in [[Silesia]].\n";
    $pages = ['Template:T' => "''{{{1}}}''"];
    $html = $wiki->html($page, $pages);
    $edited = str_replace(' in <a', ' in Czech <a', $html);
    $marked = str_replace('<p id="mw1"', '<p data-wt-edit="content" id="mw1"', $edited);
    check($wiki->wikitext($html) === $page, 'there and back');
    check($wiki->edit($page, $html, $pages) === $page, 'an edit that changes nothing');
    check($wiki->edit($page, $marked, $pages) === str_replace('in [[', 'in Czech [[', $page), 'an edit');
    check($wiki->expand($page, $pages) === "'''Opava''' is a ''town'' in [[Silesia]].\n", 'expand');
    check(array_values((array) $wiki->ranges("'''a'''")[1]) === [2, 'b', 0, 7, 3, 3], 'ranges');
    $places = array_map(fn ($it) => [$it->kind, $it->line, $it->column, $it->start, $it->end], $wiki->lint("a\n'''b [[c"));
    check($places === [['OpenStyle', 2, 1, 2, 10], ['OpenLink', 2, 6, 7, 9]], 'lint');
    check(str_contains($wiki->lint("'''b")[0]->sentence, 'apostrophes'), 'the sentence of a doubtful place');
    check($wiki->run(['gen', '1'])->status === 0, 'run');
    check($wiki->expand('a{{:Self}}b', [], 'Self') === 'aaTemplate loop: Selfbb', 'a page that calls itself');
    foreach (['2024' => '2024', 'Main Page' => 'Main_Page', 'main page' => 'Main Page'] as $title => $name) {
        check($wiki->expand('new {{T}}', [$name => 'old', 'Template:T' => 't'], (string) $title) === 'new t', "the page $title");
    }
    $refusals = [
        [fn () => $wiki->edit($page, $edited, $pages), ['UnmarkedChange', null, 1, 'node', null]],
        [fn () => $wiki->html("a\xff"), ['PageNotUtf8', null, 1, 'byte of the page', null]],
        [fn () => $wiki->html('{{A}}', ['Template:A' => "\xff"]), ['TemplateNotUtf8', null, 0, 'byte of the template', 'Template:A']],
        [fn () => $wiki->wikitext('<p'), ['HtmlRefused', 'End', 2, 'byte of the HTML', null]],
    ];
    foreach ($refusals as [$call, $wanted]) {
        try {
            $call();
            check(false, $wanted[0]);
        } catch (Refusal $it) {
            check([$it->name, $it->reason, $it->place, $it->placeIn, $it->template] === $wanted, $wanted[0]);
            check($it->sentence !== '' && $it->sentence === $it->getMessage(), "the sentence of $wanted[0]");
        }
    }
}

/** Pages that are looked up, and the names that were. */
final class Asked implements ArrayAccess
{
    public array $names = [];

    public function offsetExists(mixed $offset): bool
    {
        $this->names[] = $offset;
        return $offset === 'Template:A';
    }

    public function offsetGet(mixed $offset): string
    {
        return '{{B}}{{B}}';
    }

    public function offsetSet(mixed $offset, mixed $value): void
    {
    }

    public function offsetUnset(mixed $offset): void
    {
    }
}

$path = getenv('BUGHTISO_LIBRARY');
try {
    $library = extension_loaded('ffi') && $path !== '' ? new Library($path ?: 'libwtround.so.0') : null;
} catch (FFI\Exception) {
    $library = null;
}
if ($library === null) {
    echo "the library: skipped, FFI or the library isn't here\n";
} else {
    tryCalls(new Bughtiso($library));
    $asked = new Asked();
    check((new Bughtiso($library))->expand('{{A}}', $asked) === '[[:Template:B]][[:Template:B]]', 'pages that are looked up');
    check($asked->names === ['Template:A', 'Template:B'], 'each page is looked up once');
    tryCases($library, 1);
}
$program = getenv('BUGHTISO_PROGRAM') ?: trim((string) shell_exec('command -v wtround'));
if ($program === '') {
    echo "the program: skipped, it isn't here\n";
} else {
    tryCalls(new Bughtiso(new Program($program)));
    // Each is a process and a folder of its own, so that of each eight one is enough where the library answers all.
    tryCases(new Program($program), $library === null ? 1 : 8);
}
echo $failures === 0 ? "php: passed\n" : "php: $failures failed\n";
exit($failures === 0 ? 0 : 1);
