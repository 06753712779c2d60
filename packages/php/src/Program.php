<?php

declare(strict_types=1);

namespace Bughtiso;

/** The program `wtround`, in a process for each command. */
final class Program implements Engine
{
    public function __construct(public readonly string $path = 'wtround')
    {
    }

    /** The pages have to be ones that can be walked: an array, or also a `Traversable`. */
    public function answer(array $words, string $input, array|\ArrayAccess $pages): Answer
    {
        if (!is_array($pages) && !$pages instanceof \Traversable) {
            throw new \InvalidArgumentException('the program needs pages that can be walked');
        }
        $folder = sys_get_temp_dir() . '/bughtiso-' . bin2hex(random_bytes(8));
        if (!mkdir("$folder/pages", 0700, true)) {
            throw new \RuntimeException("the folder $folder could not be made");
        }
        try {
            foreach (count($words) > 1 ? $pages : [] as $name => $page) {
                $file = self::fileName((string) $name);
                // A page whose name has no file can't be fetched, and the program says so where it is wanted.
                if (strlen($file) <= 255) {
                    self::write("$folder/pages/$file", $page);
                }
            }
            self::write("$folder/input", $input);
            return $this->run($words, $folder);
        } finally {
            self::remove("$folder/pages");
            self::remove($folder);
        }
    }

    /** Writes a file whole, or throws: over half a page the program would answer another one. */
    private static function write(string $path, string $bytes): void
    {
        if (file_put_contents($path, $bytes) !== strlen($bytes)) {
            throw new \RuntimeException("$path could not be written");
        }
    }

    /** Removes a folder of files. */
    private static function remove(string $folder): void
    {
        foreach (array_diff((array) scandir($folder), ['.', '..']) as $name) {
            unlink("$folder/$name");
        }
        rmdir($folder);
    }

    /** @param list<string> $words */
    private function run(array $words, string $folder): Answer
    {
        $files = [['file', "$folder/input", 'r'], ['file', "$folder/out", 'w'], ['file', "$folder/err", 'w']];
        $process = proc_open([$this->path, ...$words], $files, $pipes, $folder);
        if ($process === false) {
            throw new \RuntimeException("$this->path could not be started");
        }
        $status = proc_close($process);
        return new Answer(
            $status,
            (string) file_get_contents("$folder/out"),
            (string) file_get_contents("$folder/err"),
        );
    }

    /**
     * The file of a page, as the program names it.
     *
     * @internal
     */
    public static function fileName(string $name): string
    {
        $escape = fn (array $found): string => sprintf('%%%02X', ord($found[0]));
        return preg_replace_callback('/[^A-Za-z0-9_.-]/', $escape, str_replace(' ', '_', $name)) . '.wiki';
    }
}
