<?php

declare(strict_types=1);

namespace Bughtiso;

use FFI;

/** The C library in this process, through FFI. Pages are asked for in rounds, so nothing is called back. */
final class Library implements Engine
{
    private const SHORT = 100;
    private const MISSING = 101;
    private const BAD_CALL = 102;

    private const HEADER = <<<'C'
        typedef struct { const char *bytes; size_t length; } wtround_text;
        typedef struct { char *bytes; size_t room; size_t length; } wtround_room;
        typedef struct { wtround_text name; wtround_text text; uint8_t state; } wtround_page;
        int wtround_answer(const wtround_text *words, size_t word_count, const char *input, size_t input_length,
                           const wtround_page *pages, size_t page_count, wtround_room *out, wtround_room *line,
                           wtround_room *missing);
        const char *wtround_version(void);
        C;

    private FFI $ffi;

    /** @throws FFI\Exception where there is no such library */
    public function __construct(public readonly string $path = 'libwtround.so.0')
    {
        $this->ffi = FFI::cdef(self::HEADER, $path);
    }

    /** The version of the library. */
    public function version(): string
    {
        return $this->ffi->wtround_version();
    }

    public function answer(array $words, string $input, array|\ArrayAccess $pages): Answer
    {
        $kept = [];
        $texts = $this->ffi->new('wtround_text[' . max(1, count($words)) . ']');
        foreach ($words as $k => $word) {
            $this->setText($texts[$k], $word, $kept);
        }
        $data = $this->bytesOf($input, $kept);
        $table = [];
        $rooms = [$this->room(65536 + 2 * strlen($input)), $this->room(4096), $this->room(65536)];
        for (;;) {
            $entries = $this->entries($table);
            [$out, $line, $missing] = array_column($rooms, 0);
            $status = $this->ffi->wtround_answer(
                $texts,
                count($words),
                $data,
                strlen($input),
                $entries,
                count($table),
                FFI::addr($out),
                FFI::addr($line),
                FFI::addr($missing),
            );
            if ($status === self::MISSING) {
                $this->fetch(explode("\0", rtrim($this->text($missing), "\0")), $pages, $table);
            } elseif ($status === self::SHORT) {
                $rooms = array_map(fn (array $it) => $it[0]->length > $it[0]->room ? $this->room($it[0]->length) : $it, $rooms);
            } elseif ($status === self::BAD_CALL) {
                throw new \LogicException('the library was called wrongly');
            } else {
                return new Answer($status, $this->text($out), $this->text($line));
            }
        }
    }

    /**
     * Adds what stands under these names to the table.
     *
     * @param list<string>                                                          $names
     * @param array<string, string>|\ArrayAccess<string, string>                    $pages
     * @param array<string, array{FFI\CData, int, FFI\CData, int, int}>             $table
     */
    private function fetch(array $names, array|\ArrayAccess $pages, array &$table): void
    {
        foreach ($names as $name) {
            $found = isset($pages[$name]);
            $page = $found ? $pages[$name] : '';
            $none = [];
            $table[$name] = [
                $this->bytesOf($name, $none),
                strlen($name),
                $this->bytesOf($page, $none),
                strlen($page),
                $found ? 1 : 0,
            ];
        }
    }

    /** @param array<string, array{FFI\CData, int, FFI\CData, int, int}> $table */
    private function entries(array $table): FFI\CData
    {
        $entries = $this->ffi->new('wtround_page[' . max(1, count($table)) . ']');
        $k = 0;
        foreach ($table as [$name, $nameLength, $text, $length, $state]) {
            $entry = $entries[$k++];
            $entry->name->bytes = FFI::cast('char *', FFI::addr($name));
            $entry->name->length = $nameLength;
            $entry->text->bytes = FFI::cast('char *', FFI::addr($text));
            $entry->text->length = $length;
            $entry->state = $state;
        }
        return $entries;
    }

    /** @param list<FFI\CData> $kept what has to live as long as the text */
    private function setText(FFI\CData $text, string $bytes, array &$kept): void
    {
        $text->bytes = FFI::cast('char *', FFI::addr($this->bytesOf($bytes, $kept)));
        $text->length = strlen($bytes);
    }

    /** @param list<FFI\CData> $kept */
    private function bytesOf(string $bytes, array &$kept): FFI\CData
    {
        $copy = $this->ffi->new('char[' . (strlen($bytes) + 1) . ']');
        FFI::memcpy($copy, $bytes, strlen($bytes));
        $kept[] = $copy;
        return $copy;
    }

    /** @return array{FFI\CData, FFI\CData} a room, and its bytes, which have to live as long */
    private function room(int $size): array
    {
        $bytes = $this->ffi->new("char[$size]");
        $room = $this->ffi->new('wtround_room');
        $room->bytes = FFI::cast('char *', FFI::addr($bytes));
        $room->room = $size;
        return [$room, $bytes];
    }

    private function text(FFI\CData $room): string
    {
        return $room->length === 0 ? '' : FFI::string($room->bytes, $room->length);
    }
}
