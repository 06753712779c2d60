<?php

declare(strict_types=1);

// For projects without Composer.
spl_autoload_register(static function (string $class): void {
    if (str_starts_with($class, 'Bughtiso\\')) {
        require __DIR__ . '/src/' . substr($class, strlen('Bughtiso\\')) . '.php';
    }
});
