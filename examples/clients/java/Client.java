// Asks `storklocker serve` about the bytes on standard input: java Client.java URL
//
// Status 0 is a yes, 1 a no. Whatever else happens ends with 2: without a verdict nothing is loaded.

import java.io.IOException;
import java.net.URI;
import java.net.http.HttpClient;
import java.net.http.HttpRequest;
import java.net.http.HttpResponse;
import java.nio.charset.StandardCharsets;
import java.time.Duration;
import java.util.regex.Matcher;
import java.util.regex.Pattern;

public final class Client {
    private static final int TRIES = 4;
    private static final Duration PATIENCE = Duration.ofSeconds(35);
    // The JDK reads no JSON: an answer is an object whose first key is this one.
    private static final Pattern VERDICT =
            Pattern.compile(
                    "\\{\\s*\"accepted\"\\s*:\\s*(true|false)\\s*(,.*)?\\}\\s*", Pattern.DOTALL);

    private static final HttpClient CLIENT =
            HttpClient.newBuilder()
                    .version(HttpClient.Version.HTTP_1_1)
                    .followRedirects(HttpClient.Redirect.NEVER)
                    .connectTimeout(PATIENCE)
                    .build();

    /** Whether the daemon says yes. Throws IOException where it gives no verdict. */
    public static boolean accepted(String url, byte[] data)
            throws IOException, InterruptedException {
        HttpRequest.Builder request =
                HttpRequest.newBuilder(URI.create(url))
                        .timeout(PATIENCE)
                        .header("Content-Type", "application/octet-stream")
                        .POST(HttpRequest.BodyPublishers.ofByteArray(data));
        String token = System.getenv("STORKLOCKER_TOKEN");
        if (token != null) {
            request.header("Authorization", "Bearer " + token);
        }
        IOException why = null;
        for (int number = 0; number < TRIES; number++) {
            try {
                HttpResponse<String> answer =
                        CLIENT.send(
                                request.build(),
                                HttpResponse.BodyHandlers.ofString(StandardCharsets.UTF_8));
                Matcher verdict = VERDICT.matcher(answer.body());
                String said = verdict.matches() ? verdict.group(1) : "";
                if (answer.statusCode() == 200 && said.equals("true")) {
                    return true;
                }
                if (answer.statusCode() == 422 && said.equals("false")) {
                    return false;
                }
                why = new IOException("status " + answer.statusCode());
                if (answer.statusCode() != 503) {
                    break;
                }
            } catch (IOException error) {
                why = error;
            }
            Thread.sleep(100L << number);
        }
        throw why;
    }

    public static void main(String[] words) {
        int status = 2;
        try {
            boolean isYes = accepted(words[0], System.in.readAllBytes());
            System.out.println(isYes ? "yes" : "no");
            status = isYes ? 0 : 1;
        } catch (Exception error) {
            System.out.println("no verdict: " + error);
        }
        System.exit(status);
    }
}
