import java.io.BufferedReader;
import java.io.IOException;
import java.io.InputStreamReader;
import java.io.OutputStream;
import java.nio.charset.StandardCharsets;

/** Translate TEXT..: the canonical links of pure identity URIs, by one run of tdl that is kept: $TDL, or tdl on the PATH. */
public final class Translate implements AutoCloseable {
    private final Process run;
    private final OutputStream lines;
    private final BufferedReader answers;

    Translate(String... arguments) throws IOException {
        String[] words = new String[arguments.length + 1];
        words[0] = System.getenv().getOrDefault("TDL", "tdl");
        System.arraycopy(arguments, 0, words, 1, arguments.length);
        run = new ProcessBuilder(words).redirectError(ProcessBuilder.Redirect.INHERIT).start();
        lines = run.getOutputStream();
        answers = new BufferedReader(new InputStreamReader(run.getInputStream(), StandardCharsets.US_ASCII));
    }

    synchronized String translate(String text) throws IOException {
        if (text.indexOf('\n') >= 0) throw new IllegalArgumentException("a text has no line feed");
        lines.write((text + "\r\n").getBytes(StandardCharsets.UTF_8));
        lines.flush();
        String answer = answers.readLine();
        if (answer == null) throw new IOException("tdl has ended");
        return answer;
    }

    @Override
    public void close() throws IOException {
        lines.close();
        answers.close();
        try {
            run.waitFor();
        } catch (InterruptedException stopped) {
            run.destroy();
        }
    }

    public static void main(String[] texts) throws IOException {
        try (Translate translator = new Translate("canon", "pure")) {
            for (String text : texts) System.out.println(translator.translate(text));
        }
    }
}
