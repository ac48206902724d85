<?php
// A till over the hub, in PHP 8.1 or later: php till.php http://127.0.0.1:8730 TOKEN till.json [SALES [PAUSE]]
//
// It makes SALES sales (2) at a shelf price, asks again PAUSE seconds (2) after a request without an answer, and cuts its connection amid the
// second sale. What it asks stands in till.json, on its own disk, before it is asked: where it was ended amid a sale it asks that one again
// first. Before the first sale of a day it looks whether the chain has all of its sales: over an older copy it sells nothing.

/** Its hub, and what it keeps: its last sale, whether that one is open, and the greatest serial whose record stands. */
final class Till
{
    private array $kept = ['sale' => ['serial' => 0], 'open' => false, 'taken' => 0];
    private bool $isNew;
    private string $checked = '';

    public function __construct(private string $hub, private string $token, private string $path, private float $pause)
    {
        $this->isNew = !file_exists($path);
        if (!$this->isNew) $this->kept = json_decode(file_get_contents($path), true) + $this->kept;
    }

    /** Writes what it keeps, whole or not at all. */
    private function keep(array $changes): void
    {
        $this->kept = $changes + $this->kept;
        $file = fopen("$this->path.new", 'w');
        fwrite($file, json_encode($this->kept));
        fsync($file);
        fclose($file);
        rename("$this->path.new", $this->path);
    }

    /** Status and answer, or null where there was no answer, or one that isn't the hub's: then nothing is known. */
    private function askOnce(string $method, string $to, string $body): ?array
    {
        $headers = ["Authorization: Bearer $this->token", 'Content-Type: application/json', 'Connection: close'];
        $http = ['method' => $method, 'header' => $headers, 'content' => $body, 'ignore_errors' => true, 'timeout' => 40, 'follow_location' => 0];
        $text = @file_get_contents($this->hub . $to, false, stream_context_create(['http' => $http]));
        if ($text === false || !isset($http_response_header[0])) return null;
        $status = (int) (explode(' ', $http_response_header[0])[1] ?? 0);
        $told = json_decode($text, true);
        $isProblem = is_array($told) && str_starts_with((string) ($told['type'] ?? ''), 'urn:verifactu:');
        if ($isProblem || (is_array($told) && $status < 300 && isset($told[$body === '' ? 'serial' : 'record']))) return [$status, $told];
        if ($status < 500) fwrite(STDERR, "something between till and hub answers $status: " . substr($text, 0, 80) . "\n"); // for a person
        return null;
    }

    /** Asks the same until there is an answer that says something certain. */
    private function ask(string $method, string $to, string $body = ''): array
    {
        while (($answer = $this->askOnce($method, $to, $body)) === null || $answer[0] === 429 || $answer[0] >= 500) usleep((int) (1e6 * $this->pause));
        return $answer;
    }

    /** Sends the sale, and hangs up before the answer. */
    private function cutOff(array $sale): void
    {
        $url = parse_url($this->hub);
        $line = stream_socket_client(($url['scheme'] === 'https' ? 'tls' : 'tcp') . "://{$url['host']}:" . ($url['port'] ?? 443));
        $body = json_encode($sale);
        fwrite($line, 'POST ' . ($url['path'] ?? '') . "/v1/sales HTTP/1.1\r\nHost: {$url['host']}\r\nAuthorization: Bearer $this->token\r\nContent-Length: " . strlen($body) . "\r\n\r\n$body");
        fclose($line);
    }

    /** Before the first sale of a day: a chain that lacks a sale of this till is an older copy, over which nothing may be sold. */
    private function check(): void
    {
        [$status, $told] = $this->ask('GET', '/v1/last');
        if ($status !== 200) $this->stop("{$told['title']}: {$told['detail']}");
        if ($told['serial'] < $this->kept['taken']) {
            $this->stop("the chain is an older copy: it has serial {$told['serial']}, and {$this->kept['taken']} was sold. Nothing is sold");
        }
        if ($this->isNew) $this->keep(['sale' => ['serial' => $told['serial']], 'taken' => $told['serial']]); // or its disk was lost
        $this->isNew = false;
        $this->checked = date('Y-m-d');
    }

    /** Asks until there is an answer, the same under the same serial, and prints the ticket. */
    private function settle(array $sale, bool $isCut = false): void
    {
        $this->keep(['sale' => $sale, 'open' => true]);
        if ($isCut) $this->cutOff($sale);
        [$status, $told] = $this->ask('POST', '/v1/sales', json_encode($sale));
        if ($status > 201) {
            if (in_array($status, [400, 409, 413])) $this->keep(['open' => false]); // not registered; else an earlier try may have been
            $this->stop("{$told['title']}: {$told['detail']}");
        }
        $this->keep(['open' => false, 'taken' => $sale['serial']]);
        if ($told['record']['total'] !== array_sum(array_column($sale['lines'], 'total'))) {
            $this->stop("serial {$sale['serial']} was given to two sales: " . json_encode($told['record']));
        }
        echo "{$told['answer']} {$told['num']} {$told['ticket']['date']} {$told['ticket']['total']}\n{$told['ticket']['link']}\n";
    }

    private function stop(string $text): never
    {
        fwrite(STDERR, "$text\n");
        exit(1);
    }

    /** Makes so many sales, after the one that is open. */
    public function sell(int $count): void
    {
        $this->check();
        if ($this->kept['open']) $this->settle($this->kept['sale']);
        for ($made = 0; $made < $count; $made++) {
            if ($this->checked !== date('Y-m-d')) $this->check();
            $lines = [['class' => '21', 'total' => $made % 2 ? 250 : 1000]];
            $this->settle(['serial' => $this->kept['sale']['serial'] + 1, 'series' => 'A', 'kind' => 'F2', 'lines' => $lines], $made === 1);
        }
    }
}

(new Till($argv[1], $argv[2], $argv[3], (float) ($argv[5] ?? 2)))->sell((int) ($argv[4] ?? 2));
