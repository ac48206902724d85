// A till over the hub, in Java 11 or later: java Till.java http://127.0.0.1:8730 TOKEN till.json [SALES [PAUSE]]
// It makes SALES sales (2) at a shelf price, asks again PAUSE seconds (2) after a request without an answer, and cuts its connection amid the
// second sale. What it asks stands in till.json, on its own disk, before it is asked: where it was ended amid a sale it asks that one again
// first. Before the first sale of a day it looks whether the chain has all of its sales: over an older copy it sells nothing.
// JSON is read by patterns here; take a library.
import java.io.IOException;
import java.net.*;
import java.net.http.*;
import java.nio.channels.FileChannel;
import java.nio.file.*;
import java.time.*;
import java.util.List;
import java.util.regex.Pattern;

public class Till {
    static String hub, token, path, sale;
    static long pause, serial, taken; // milliseconds; the last sale's serial, and the greatest serial whose record stands
    static final HttpClient CLIENT = HttpClient.newBuilder().version(HttpClient.Version.HTTP_1_1).build(); // (an offer of HTTP/2 loses the body in older hubs)

    // Writes what it keeps, whole or not at all.
    static void keep(boolean isOpen) throws IOException {
        Path kept = Path.of(path + ".new");
        Files.writeString(kept, "{\"sale\":" + sale + ",\"open\":" + isOpen + ",\"taken\":" + taken + "}");
        try (FileChannel file = FileChannel.open(kept, StandardOpenOption.WRITE)) { file.force(true); }
        Files.move(kept, Path.of(path), StandardCopyOption.ATOMIC_MOVE);
        try (FileChannel folder = FileChannel.open(Path.of(path).toAbsolutePath().getParent())) { folder.force(true); }
    }

    static String find(String json, String pattern) {
        return Pattern.compile(pattern).matcher(json).results().findFirst().map(found -> found.group(1)).orElse("");
    }

    static long number(String json, String pattern) {
        String found = find(json, pattern);
        return found.isEmpty() ? 0 : Long.parseLong(found);
    }

    // The answer, or null where there was none, or one that isn't the hub's: then nothing is known.
    static HttpResponse<String> askOnce(String method, String to, String body) throws InterruptedException {
        HttpRequest asked = HttpRequest.newBuilder(URI.create(hub + to)).timeout(Duration.ofSeconds(40)).header("Authorization", "Bearer " + token)
            .header("Content-Type", "application/json").method(method, HttpRequest.BodyPublishers.ofString(body)).build();
        HttpResponse<String> answer;
        try { answer = CLIENT.send(asked, HttpResponse.BodyHandlers.ofString()); } catch (IOException none) { return null; }
        String text = answer.body();
        boolean isWanted = answer.statusCode() < 300 && !find(text, "(\"" + (body.isEmpty() ? "serial" : "record") + "\":)").isEmpty();
        if (text.startsWith("{") && (isWanted || !find(text, "\"type\": ?\"(urn:verifactu:)").isEmpty())) return answer;
        if (answer.statusCode() < 500) System.err.println("something between till and hub answers " + answer.statusCode() + ": " + text.substring(0, Math.min(80, text.length()))); // for a person
        return null;
    }

    // Asks the same until there is an answer that says something certain.
    static HttpResponse<String> ask(String method, String to, String body) throws InterruptedException {
        HttpResponse<String> answer = askOnce(method, to, body);
        for (; answer == null || answer.statusCode() == 429 || answer.statusCode() >= 500; answer = askOnce(method, to, body)) Thread.sleep(pause);
        return answer;
    }

    static void cutOff() throws IOException {
        try (Socket line = new Socket(URI.create(hub).getHost(), URI.create(hub).getPort())) { // without TLS: only to show what a lost answer does
            line.getOutputStream().write(("POST " + URI.create(hub).getPath() + "/v1/sales HTTP/1.1\r\nHost: hub\r\nAuthorization: Bearer " + token + "\r\nContent-Length: " + sale.length() + "\r\n\r\n" + sale).getBytes());
        }
    }

    // Before the first sale of a day: a chain that lacks a sale of this till is an older copy, over which nothing may be sold.
    static void check(boolean isNew) throws IOException, InterruptedException {
        HttpResponse<String> answer = ask("GET", "/v1/last", "");
        if (answer.statusCode() != 200) throw new IOException(answer.body());
        long last = number(answer.body(), "\"serial\": ?(\\d+)");
        if (last < taken) throw new IOException("the chain is an older copy: it has serial " + last + ", and " + taken + " was sold. Nothing is sold");
        if (isNew) serial = taken = last; // or its disk was lost: it goes on with the serial that the chain has
    }

    // Asks until there is an answer, the same under the same serial, and prints the ticket.
    static void settle(boolean isCut) throws IOException, InterruptedException {
        keep(true);
        if (isCut) cutOff();
        HttpResponse<String> answer = ask("POST", "/v1/sales", sale);
        String told = answer.body();
        if (answer.statusCode() > 201) {
            if (List.of(400, 409, 413).contains(answer.statusCode())) keep(false); // not registered; else it stays open: an earlier try may have been
            throw new IOException(told);
        }
        taken = serial;
        keep(false);
        String record = find(told, "\"record\": ?(\\{.*?\\})"), ticket = find(told, "\"ticket\": ?(\\{.*?\\})");
        if (number(record, "\"total\": ?(-?\\d+)") != number(sale, "\"total\": ?(-?\\d+)")) throw new IOException("serial " + serial + " was given to two sales: " + record);
        System.out.println(find(told, "\"answer\": ?\"(\\w+)\"") + " " + find(told, "\"num\": ?\"([^\"]*)\"") + " " + find(ticket, "\"date\": ?\"([^\"]*)\"") + " " + find(ticket, "\"total\": ?(-?\\d+)"));
        System.out.println(find(ticket, "\"link\": ?\"([^\"]*)\""));
    }

    public static void main(String[] words) throws IOException, InterruptedException {
        hub = words[0]; token = words[1]; path = words[2];
        int sales = words.length > 3 ? Integer.parseInt(words[3]) : 2;
        pause = Math.round(1000 * (words.length > 4 ? Double.parseDouble(words[4]) : 2));
        boolean isNew = !Files.exists(Path.of(path));
        String kept = isNew ? "" : Files.readString(Path.of(path));
        sale = find(kept, "\"sale\": ?(\\{.*\\}), ?\"open\"");
        serial = number(sale, "\"serial\": ?(\\d+)");
        taken = number(kept, "\"taken\": ?(\\d+)");
        LocalDate checked = LocalDate.now();
        check(isNew);
        if (!find(kept, "\"open\": ?(true)").isEmpty()) settle(false);
        for (int made = 0; made < sales; made++) {
            if (!checked.equals(LocalDate.now())) { check(false); checked = LocalDate.now(); }
            sale = "{\"serial\":" + ++serial + ",\"series\":\"A\",\"kind\":\"F2\",\"lines\":[{\"class\":\"21\",\"total\":" + (made % 2 == 1 ? 250 : 1000) + "}]}";
            settle(made == 1);
        }
    }
}
