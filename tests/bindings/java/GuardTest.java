import java.io.BufferedReader;
import java.io.IOException;
import java.io.InputStreamReader;
import java.nio.charset.StandardCharsets;
import java.nio.file.Files;
import java.nio.file.Path;
import java.nio.file.attribute.PosixFilePermissions;
import java.time.Duration;
import java.util.ArrayList;
import java.util.Arrays;
import java.util.EnumSet;
import java.util.List;
import java.util.Map;
import java.util.Set;
import java.util.concurrent.Callable;
import java.util.concurrent.ExecutorService;
import java.util.concurrent.Executors;
import java.util.concurrent.Future;
import java.util.stream.Collectors;
import java.util.stream.IntStream;

/**
 * Tests of Guard.java, which test_java.py runs.
 *
 * <pre>
 * GuardTest play PROGRAM CONFIG            makes each act of standard input, and writes the audit
 * GuardTest states PROGRAM CONFIG          makes them, and writes what each leaves of the processes
 * GuardTest killable PROGRAM CONFIG        makes them, and writes who may be killed after each 20th
 * GuardTest places PROGRAM CONFIG..        writes the processes of each key and value that is read
 * GuardTest asked PROGRAM                  makes acts and asks questions, and writes each answer
 * GuardTest threads PROGRAM CONFIG         eight threads share a guard; writes the audit
 * GuardTest cases PROGRAM CONFIG FOLDER    each error once; writes how many cases passed
 * </pre>
 */
final class GuardTest {
    private static final int ORDERS = 250;

    private final String program;
    private final Path config;
    private final Path folder;
    private int passed;

    private GuardTest(String program, Path config, Path folder) {
        this.program = program;
        this.config = config;
        this.folder = folder;
    }

    public static void main(String[] words) throws Exception {
        Path config = Path.of(words[words.length > 2 ? 2 : 1]);
        switch (words[0]) {
            case "play":
                play(words[1], config, (guard, at) -> { });
                break;
            case "states":
                play(words[1], config, GuardTest::writeStates);
                break;
            case "killable":
                play(words[1], config, GuardTest::writeKillable);
                break;
            case "places":
                places(words[1], List.of(words).subList(2, words.length));
                break;
            case "asked":
                asked(words[1]);
                break;
            case "threads":
                threads(words[1], config);
                break;
            default:
                new GuardTest(words[1], config, Path.of(words[3])).cases();
        }
    }

    /** What is written after an act, whose place is told. */
    private interface After {
        void write(Guard guard, int at);
    }

    /** Each line has an actor, the name of an act, and its members in the order of their names. */
    private static void play(String program, Path config, After after) throws IOException {
        BufferedReader lines =
            new BufferedReader(new InputStreamReader(System.in, StandardCharsets.US_ASCII));
        try (Guard guard = new Guard(config, program)) {
            for (String line = lines.readLine(); line != null; line = lines.readLine()) {
                String[] words = line.split("\t", -1);
                try {
                    make(guard, Integer.parseInt(words[0]), words);
                } catch (Guard.ActRefused refused) {
                    // The audit has it.
                }
                after.write(guard, guard.journalLength() - 1);
            }
            System.out.print(guard.audit());
        }
    }

    private static void writeStates(Guard guard, int at) {
        List<String> states = new ArrayList<>();
        for (int process = 0; process < 8; process++) {
            String state = guard.state(process).map(Guard.State::toString).orElse("none");
            states.add(state + (guard.isDestroyed(process) ? "!" : ""));
        }
        Guard.Key key = Guard.Key.values()[at % Guard.Key.values().length];
        String value = "pmzhd".charAt(key.ordinal()) + "" + at / 5 % 7;
        System.out.println(states + " " + guard.left() + " " + guard.destroyed() + " "
            + guard.gone() + " " + guard.upSet()
            + " " + key.word + " " + value + " " + guard.targets(key, value));
    }

    private static void writeKillable(Guard guard, int at) {
        for (int actor = 0; actor < 4 && at % 20 == 0; actor++) {
            System.out.println(hardest(guard, actor));
        }
    }

    /**
     * Each file has a block: how many processes there are, and a line for each value of standard
     * input.
     */
    private static void places(String program, List<String> configs) throws IOException {
        BufferedReader lines =
            new BufferedReader(new InputStreamReader(System.in, StandardCharsets.US_ASCII));
        List<String> asked = lines.lines().collect(Collectors.toList());
        for (String config : configs) {
            try (Guard guard = new Guard(Path.of(config), program)) {
                System.out.println(guard.processCount());
                for (String line : asked) {
                    String[] words = line.split("\t");
                    System.out.println(line + "\t" + guard.targets(key(words[0]), words[1]) + "\t"
                        + guard.process(words[1]).orElse(-1));
                }
            }
        }
    }

    /** A line is the path of a cluster file, a question, or an act as of {@link #play}. */
    private static void asked(String program) throws IOException {
        BufferedReader lines =
            new BufferedReader(new InputStreamReader(System.in, StandardCharsets.US_ASCII));
        Guard guard = null;
        for (String line = lines.readLine(); line != null; line = lines.readLine()) {
            if (line.startsWith("/")) {
                if (guard != null) {
                    guard.close();
                }
                guard = new Guard(Path.of(line), program);
            } else if (line.startsWith("{")) {
                System.out.print(guard.ask(line));
            } else {
                String[] words = line.split("\t", -1);
                try {
                    make(guard, Integer.parseInt(words[0]), words);
                } catch (Guard.ActRefused refused) {
                    // The audit has it.
                }
                String audit = guard.audit();
                System.out.print(audit.substring(audit.lastIndexOf('\n', audit.length() - 2) + 1));
            }
        }
        guard.close();
    }

    private static void make(Guard guard, int by, String[] words) {
        switch (words[1]) {
            case "kill":
                guard.kill(by, key(words[3]), words[6], kind(words[4]), kind(words[2]),
                    unsigned(words[5]));
                break;
            case "clog":
                guard.clog(by, key(words[2]), words[4], unsigned(words[3]));
                break;
            case "unclog":
                guard.unclog(by, key(words[2]), words[3]);
                break;
            case "form":
                guard.form(by,
                    split(words[2]).stream().map(Integer::valueOf).collect(Collectors.toList()),
                    whole(words[3]));
                break;
            case "begin":
                guard.begin(by, whole(words[3]), bytes(words[2]));
                break;
            case "deliver":
                guard.deliver(by, unsigned(words[2]));
                break;
            case "lose":
                guard.lose(by, unsigned(words[2]));
                break;
            case "resend":
                guard.resend(by, whole(words[3]), whole(words[2]));
                break;
            case "sync":
                guard.sync(by, whole(words[2]));
                break;
            case "up":
                guard.up(by, whole(words[2]));
                break;
            case "heal":
                guard.heal(by, whole(words[2]));
                break;
            case "tick":
                guard.tick(by, unsigned(words[2]));
                break;
            case "give":
                if (words.length == 5) {
                    guard.give(by, whole(words[2]), kinds(words[3]));
                } else {
                    guard.give(by, whole(words[2]), kinds(words[3]), key(words[4]), words[5]);
                }
                break;
            case "take":
                guard.take(by, whole(words[2]), whole(words[3]));
                break;
            case "protect":
                guard.protect(by, whole(words[3]), kinds(words[2]));
                break;
            case "unprotect":
                guard.unprotect(by, whole(words[3]), kinds(words[2]));
                break;
            case "copy":
                guard.copy(by, whole(words[3]), whole(words[2]), whole(words[4]));
                break;
            case "replace":
                guard.replace(by, whole(words[4]), whole(words[3]), whole(words[2]));
                break;
            default:
                throw new AssertionError(words[1]);
        }
    }

    private static int whole(String word) {
        return Integer.parseInt(word);
    }

    private static long unsigned(String word) {
        return Long.parseUnsignedLong(word);
    }

    private static Guard.Key key(String word) {
        return Arrays.stream(Guard.Key.values())
            .filter(it -> it.word.equals(word))
            .findFirst()
            .orElseThrow();
    }

    private static Guard.Kind kind(String word) {
        return Arrays.stream(Guard.Kind.values())
            .filter(it -> it.word.equals(word))
            .findFirst()
            .orElseThrow();
    }

    private static List<String> split(String words) {
        return words.isEmpty() ? List.of() : List.of(words.split(","));
    }

    private static Set<Guard.Kind> kinds(String words) {
        return split(words).stream().map(GuardTest::kind).collect(Collectors.toSet());
    }

    private static byte[] bytes(String digits) {
        byte[] read = new byte[digits.length() / 2];
        for (int at = 0; at < read.length; at++) {
            read[at] = (byte) Integer.parseInt(digits.substring(2 * at, 2 * at + 2), 16);
        }
        return read;
    }

    /** Actors 1 to 8 kill from a thread each. What each was answered has to be its entries. */
    private static void threads(String program, Path config) throws Exception {
        ExecutorService pool = Executors.newFixedThreadPool(8);
        try (Guard guard = new Guard(config, program)) {
            List<Future<List<String>>> heard = new ArrayList<>();
            for (int number = 1; number <= 8; number++) {
                int actor = number;
                heard.add(pool.submit(() -> orders(guard, actor)));
            }
            List<List<String>> answers = new ArrayList<>();
            for (Future<List<String>> one : heard) {
                answers.add(one.get());
            }
            String audit = guard.audit();
            for (int actor = 1; actor <= 8; actor++) {
                String by = ",\"by\":" + actor + ",\"reply\":";
                List<String> entries =
                    audit.lines().filter(line -> line.contains(by))
                        .map(line -> line.substring(line.indexOf(by) + by.length()))
                        .map(reply -> reply.substring(0, reply.length() - 1))
                        .collect(Collectors.toList());
                require(entries.equals(answers.get(actor - 1)), "the answers of actor " + actor);
            }
            System.out.print(audit);
        } finally {
            pool.shutdown();
        }
    }

    private static List<String> orders(Guard guard, int actor) {
        List<String> answers = new ArrayList<>();
        for (int number = 0; number < ORDERS; number++) {
            Guard.Verdict verdict =
                guard.kill(actor, Guard.Key.PROCESS, "p" + number % 6, Guard.Kind.REBOOT_AND_DELETE,
                    Guard.Kind.REBOOT, number);
            String named = verdict.named().isPresent() ? "," + verdict.named().getAsInt() : "";
            String rule =
                verdict.rule().map(it -> "[\"" + it.word + "\"" + named + "]").orElse("null");
            String struck = verdict.struck().map(it -> "\"" + it.word + "\"").orElse("null");
            answers.add("{\"verdict\":{\"rule\":" + rule + ",\"struck\":" + struck + "}}");
        }
        return answers;
    }

    private void cases() throws Exception {
        verdicts();
        goesOn();
        readsLate();
        refusals();
        arguments();
        replies();
        ahead();
        processes();
        killable();
        configs();
        fullJournal();
        ends();
        silence();
        System.out.println(passed + " passed");
    }

    private Guard open() {
        return new Guard(config, program);
    }

    /** A guard goes on where an audit ends; a refused audit ends it. */
    private void goesOn() throws IOException {
        Path audit = folder.resolve("after.audit");
        Duration patience = Duration.ofMinutes(1);
        try (Guard one = new Guard(config, program)) {
            one.kill(1, Guard.Key.ZONE, "z0", Guard.Kind.KILL_INSTANTLY);
            Files.writeString(audit, one.audit());
            try (Guard other = Guard.after(config, audit, program, patience)) {
                check(other.audit().equals(one.audit()) && other.journalLength() == 1,
                    "the journal");
                one.kill(1, Guard.Key.ZONE, "z1", Guard.Kind.KILL_INSTANTLY);
                other.kill(1, Guard.Key.ZONE, "z1", Guard.Kind.KILL_INSTANTLY);
                check(other.audit().equals(one.audit()) && other.journalLength() == 2,
                    "the next entry");
            }
        }
        Map<String, String> faults =
            Map.of(
                "{\"audit\":1}\n", "audit: line 1: Header",
                "{\"audit\":2}\n{", "audit: line 2: Syntax");
        for (Map.Entry<String, String> it : faults.entrySet()) {
            Files.writeString(audit, it.getKey());
            Guard refused = Guard.after(config, audit, program, patience);
            try {
                refused.up(0, 0);
                check(false, "a refused audit");
            } catch (Guard.GuardEnded ended) {
                check(ended.fault().equals(it.getValue()), "a refused audit: " + ended.fault());
            }
            check(Files.readString(audit).equals(it.getKey()), "the file of a refused audit");
        }
        try {
            Guard.after(config, folder.resolve("none"), program, patience);
            check(false, "no audit");
        } catch (Guard.GuardEnded ended) {
            check(true, "no audit");
        }
    }

    /** A program that reads late reads all, and an audit that grew meanwhile ends the guard. */
    private void readsLate() throws Exception {
        Path gate = folder.resolve("gate");
        Path late = folder.resolve("late");
        Path audit = folder.resolve("late.audit");
        new ProcessBuilder("mkfifo", gate.toString()).start().waitFor();
        Files.writeString(late,
            "#!/bin/sh\nread line < " + gate + "\nexec " + program + " \"$@\"\n");
        late.toFile().setExecutable(true);
        try (Guard one = new Guard(config, program)) {
            one.kill(1, Guard.Key.ZONE, "z0", Guard.Kind.KILL_INSTANTLY);
            String before = one.audit();
            one.tick(0, 1);
            for (String stands : List.of(before, one.audit())) {
                Files.writeString(audit, before);
                try (Guard guard =
                    Guard.after(config, audit, late.toString(), Duration.ofMinutes(1))) {
                    check(Files.readString(audit).equals(before), "the file that is read late");
                    Files.writeString(audit, stands);
                    Files.writeString(gate, "\n");
                    readsLate(guard, stands.equals(before));
                    check(Files.readString(audit).equals(stands), "the file that was read late");
                }
            }
        }
    }

    private void readsLate(Guard guard, boolean isSame) {
        try {
            guard.kill(1, Guard.Key.ZONE, "z1", Guard.Kind.KILL_INSTANTLY);
            check(isSame && guard.isDestroyed(0) && !guard.isDestroyed(2), "an audit read late");
        } catch (Guard.GuardEnded ended) {
            check(!isSame, "an audit that grew: " + ended);
        }
    }

    private void verdicts() {
        try (Guard guard = open()) {
            Guard.Verdict first =
                guard.kill(1, Guard.Key.ZONE, "z0", Guard.Kind.KILL_INSTANTLY,
                    Guard.Kind.REBOOT, 0);
            check(
                first.struck().orElseThrow() == Guard.Kind.KILL_INSTANTLY && first.rule().isEmpty(),
                "z0 goes");
            Guard.Verdict second = guard.kill(1, Guard.Key.ZONE, "z1", Guard.Kind.KILL_INSTANTLY);
            check(second.struck().orElseThrow() == Guard.Kind.REBOOT, "z1 is rebooted");
            check(second.rule().orElseThrow() == Guard.Rule.TOO_MANY_DESTROYED,
                "since too many would be destroyed");
            check(second.named().orElseThrow() == 0, "by policy 0");
            Guard.Verdict third =
                guard.kill(1, Guard.Key.ZONE, "z2", Guard.Kind.KILL_INSTANTLY,
                    Guard.Kind.KILL_INSTANTLY, 0);
            check(third.struck().isEmpty(), "z2 lives");
            Guard.Ruling nobody = guard.unclog(1, Guard.Key.DATA_HALL, "h0");
            check(nobody.rule().orElseThrow() == Guard.Rule.NO_TARGET && nobody.named().isEmpty(),
                "nobody is in a hall");
        }
    }

    private void refusals() {
        try (Guard guard = open()) {
            Guard.ActRefused up = thrown(Guard.ActRefused.class, () -> guard.up(0, 2));
            check(up.refusal() == Guard.Refusal.IS_UP && up.named().isEmpty(), "p2 is up");
            Guard.ActRefused form =
                thrown(Guard.ActRefused.class, () -> guard.form(0, List.of(0, 1), 0));
            check(form.refusal() == Guard.Refusal.TEAM_SHORT && form.named().orElseThrow() == 0,
                "one zone is short");
            Guard.ActRefused role = thrown(Guard.ActRefused.class, () -> guard.heal(1, 0));
            check(role.refusal() == Guard.Refusal.WRONG_ROLE,
                "an actor of role fault heals nobody");
            check(guard.journalLength() == 3, "refusals stand in the journal");
        }
    }

    private void arguments() {
        try (Guard guard = open()) {
            List<Integer> many = IntStream.range(0, 1025).boxed().collect(Collectors.toList());
            List<Callable<?>> bad =
                List.of(
                    () -> guard.kill(1, Guard.Key.ZONE, "no name", Guard.Kind.REBOOT),
                    () -> guard.kill(1, Guard.Key.ZONE, "-z", Guard.Kind.REBOOT),
                    () -> guard.kill(1, Guard.Key.ZONE, "z".repeat(33), Guard.Kind.REBOOT),
                    () -> guard.kill(1, Guard.Key.ZONE, "z0\n", Guard.Kind.REBOOT),
                    () -> guard.kill(1, Guard.Key.ZONE, "z0", Guard.Kind.CLOG),
                    () -> guard.kill(1, Guard.Key.ZONE, "z0", Guard.Kind.REBOOT,
                        Guard.Kind.KILL_INSTANTLY, 0),
                    () -> guard.tick(-1, 1),
                    () -> guard.sync(0, -1),
                    () -> guard.begin(0, 0, new byte[32_768]),
                    () -> guard.form(0, many, 0));
            for (Callable<?> one : bad) {
                thrown(IllegalArgumentException.class, one::call);
            }
            check(guard.audit().equals("{\"audit\":2}\n"), "nothing was sent");
            check(guard.tick(0, 9) == 9, "the guard goes on");
        }
    }

    private void replies() {
        try (Guard guard = open()) {
            check(guard.form(0, List.of(2, 0), 0) == 0, "team 0");
            Guard.Begun begun = guard.begin(0, 0, new byte[] {1, -1});
            check(begun.record == 0 && begun.first == 0, "record 0");
            check(guard.deliver(0, 0) == Guard.Delivery.STORED, "p0 stores");
            check(guard.deliver(0, 1) == Guard.Delivery.STORED, "p2 stores");
            Guard.Synced synced = guard.sync(0, 0);
            check(synced.count == 1 && synced.first == 2, "p0 syncs");
            check(guard.sync(0, 2).first == 3, "p2 syncs");
            check(guard.deliver(0, 2) == Guard.Delivery.MARKED, "one zone isn't enough");
            check(guard.deliver(0, 3) == Guard.Delivery.ACKNOWLEDGED, "two zones are");
            check(guard.isAcked(0) && !guard.isAcked(1), "record 0 is acknowledged");
            check(guard.keeper(0).orElseThrow() == 0 && guard.keeper(1).isEmpty(), "p0 keeps it");
            Guard.Kept kept = guard.record(0).orElseThrow();
            check(kept.team == 0 && kept.synced.equals(Set.of(0, 2)), "and p2");
            check(guard.copy(0, 0, 0, 4) == 4, "message 4 goes to p4");
            Guard.Sight sight = guard.sight();
            check(sight.now == 0 && sight.deliverable.orElseThrow() == 4, "and is there");
            check(sight.sleeping.isEmpty() && sight.unsynced.isEmpty(), "all run, and are synced");
            check(guard.needed(0).isEmpty() && guard.needed(6).isEmpty(), "nobody lacks a record");
            guard.lose(0, 4);
            guard.protect(4, 1, EnumSet.of(Guard.Kind.REBOOT));
            Guard.Verdict barred = guard.kill(1, Guard.Key.PROCESS, "p1", Guard.Kind.REBOOT);
            check(barred.rule().orElseThrow() == Guard.Rule.PROTECTED, "p1 is protected");
            guard.kill(1, Guard.Key.PROCESS, "p0", Guard.Kind.REBOOT_AND_DELETE);
            check(guard.needed(0).orElseThrow() == 0 && guard.keeper(0).orElseThrow() == 2,
                "p0 lacks it now, and p2 keeps it");
            check(guard.sight().sleeping.orElseThrow() == 0, "p0 is down");
            guard.clog(1, Guard.Key.ZONE, "z1", 9);
            Guard.State state = guard.state(1).orElseThrow();
            check(state.barred.equals(Set.of(Guard.Kind.REBOOT)), "what is barred on p1");
            check(guard.state(2).orElseThrow().cloggedUntil.orElseThrow() == 9, "p2 until 9");
            Guard.Ruling ruling = guard.judgeClog(2, Guard.Key.ZONE, "z1", 9);
            check(ruling.rule().orElseThrow() == Guard.Rule.NO_GRANT, "actor 2 may not clog");
            check(guard.judgeClog(1, Guard.Key.ZONE, "z1", 9).rule().isEmpty(), "actor 1 may");
            thrown(Guard.ActRefused.class, () -> guard.judgeClog(9, Guard.Key.ZONE, "z1", 9));
        }
    }

    private void ahead() throws IOException {
        String text = Files.readString(config);
        Path own = Files.writeString(folder.resolve("own.toml"), text);
        try (Guard guard = new Guard(own, program)) {
            guard.kill(1, Guard.Key.ZONE, "z0", Guard.Kind.KILL_INSTANTLY);
            guard.protect(4, 4, EnumSet.of(Guard.Kind.REBOOT, Guard.Kind.CLOG));
            thrown(Guard.ActRefused.class, () -> guard.up(0, 2));
            String audit = guard.audit();
            Guard.Verdict told =
                guard.judge(1, Guard.Key.ZONE, "z1", Guard.Kind.KILL_INSTANTLY, Guard.Kind.REBOOT);
            check(told.struck().orElseThrow() == Guard.Kind.REBOOT, "z1 would be rebooted");
            check(told.rule().orElseThrow() == Guard.Rule.TOO_MANY_DESTROYED,
                "since too many would be destroyed");
            Guard.Borne borne = guard.bears();
            check(borne.toString().equals("emptied 0, gone 0"),
                "some single process is too many now: " + borne);
            check(borne.emptiedExact && borne.goneExact && borne.emptied == 0 && borne.gone == 0,
                "and 0 is exact");
            check(guard.audit().equals(audit) && children() == 1,
                "nothing is entered, and nothing is left running");
            try (Guard other = guard.tryCopy()) {
                check(other.audit().equals(audit) && other.journalLength() == 3,
                    "the copy has the journal");
                other.tick(0, 7);
                check(guard.audit().equals(audit) && guard.tick(0, 1) == 1,
                    "neither changes the other");
                check(other.tick(0, 1) == 8, "and the copy goes on");
            }
            guard.reset();
            check(guard.audit().equals("{\"audit\":2}\n") && guard.journalLength() == 0,
                "nothing happened yet");
            check(guard.kill(1, Guard.Key.ZONE, "z1", Guard.Kind.KILL_INSTANTLY).rule().isEmpty(),
                "z1 goes now");
            Files.writeString(own, text.replace("Across(2,", "Across(1,"));
            Guard.GuardEnded another = thrown(Guard.GuardEnded.class, guard::tryCopy);
            check(another.fault().equals("bad entry 0"), another.getMessage());
            Files.writeString(own, "=");
            check(guard.bears().emptied == 0, "the guard is of the file as it was opened");
            check(guard.targets(Guard.Key.ZONE, "z1").isEmpty() && guard.processCount() == 6,
                "and knows its places");
            thrown(Guard.ConfigRefused.class, guard::reset);
            thrown(Guard.ConfigRefused.class, () -> guard.tick(0, 1));
        }
        check(children() == 0, "nothing runs");
    }

    private void processes() {
        Guard closed = open();
        try (Guard guard = closed) {
            check(guard.processCount() == 6 && guard.process("p4").orElseThrow() == 4,
                "p4 is process 4");
            check(guard.process("p6").isEmpty() && guard.process("z0").isEmpty(),
                "there is no process p6 or z0");
            guard.clog(1, Guard.Key.ZONE, "z0", 3);
            guard.clog(1, Guard.Key.PROCESS, "p1", 2);
            guard.killProcess(1, 0, Guard.Kind.KILL_INSTANTLY);
            guard.killProcess(1, 1, Guard.Kind.REBOOT_AND_DELETE);
            check(guard.state(0).orElseThrow().toString().equals("down, clogged, gone"),
                "p0 is gone");
            Guard.State emptied = guard.state(1).orElseThrow();
            check(emptied.destroyed && !emptied.gone && !emptied.up && emptied.clogged,
                "p1 is emptied");
            check(guard.left().equals(Set.of(1, 2, 3, 4, 5)) && guard.gone().equals(Set.of(0)),
                "who is left");
            check(guard.destroyed().equals(Set.of(0, 1)) && guard.isDestroyed(1),
                "who is destroyed");
            check(guard.upSet().equals(Set.of(2, 3, 4, 5)), "who is up");
            check(guard.targets(Guard.Key.ZONE, "z0").equals(Set.of(1)),
                "who is gone is no target");
            guard.up(0, 1);
            guard.heal(0, 1);
            guard.tick(0, 2);
            check(guard.state(1).orElseThrow().toString().equals("up, clogged"),
                "a clog shortens no other");
            guard.unclog(1, Guard.Key.ZONE, "z0");
            check(guard.state(1).orElseThrow().toString().equals("up") && !guard.isDestroyed(1),
                "p1 is healed");
            check(guard.state(0).orElseThrow().clogged, "who is gone is no target of an unclog");
            guard.tick(0, (1L << 40) - 12);
            guard.clog(1, Guard.Key.PROCESS, "p4", -1);
            check(guard.tick(0, 9) == (1L << 40) - 1 && guard.state(4).orElseThrow().clogged,
                "clogged to the clock's end");
            check(guard.tick(0, 1) == 1L << 40 && !guard.state(4).orElseThrow().clogged,
                "and no longer");
            check(guard.state(6).isEmpty() && !guard.isDestroyed(6), "there is no process 6");
            thrown(IllegalArgumentException.class, () -> guard.state(-1));
            thrown(IllegalArgumentException.class, () -> guard.isDestroyed(-1));
            thrown(IllegalArgumentException.class, () -> guard.process("no name"));
            thrown(IllegalArgumentException.class, () -> guard.targets(Guard.Key.ZONE, ""));
            guard.reset();
            check(guard.upSet().size() == 6 && guard.destroyed().isEmpty(), "nothing happened yet");
        }
        List<Call> asked =
            List.of(
                () -> closed.state(0), () -> closed.isDestroyed(0), () -> closed.process("p0"),
                closed::processCount, () -> closed.targets(Guard.Key.ZONE, "z0"), closed::left,
                closed::destroyed, closed::gone, closed::upSet, () -> closed.killable(1),
                () -> closed.judgeProcess(1, 0, Guard.Kind.REBOOT, Guard.Kind.REBOOT),
                closed::bears);
        for (Call one : asked) {
            thrown(Guard.GuardEnded.class, one);
        }
    }

    private void killable() throws IOException {
        String hard = Guard.Kind.KILL_INSTANTLY.word;
        try (Guard guard = open()) {
            guard.protect(4, 5, EnumSet.of(Guard.Kind.REBOOT, Guard.Kind.KILL_INSTANTLY));
            check(hardest(guard, 1).equals((hard + " ").repeat(5) + "RebootAndDelete"),
                "all but p5 may be killed");
            check(hardest(guard, 3).equals("- - - - - -"), "actor 3 has no grant");
            guard.killProcess(1, 0, Guard.Kind.KILL_INSTANTLY);
            check(hardest(guard, 1).equals("- " + hard + " Reboot Reboot Reboot RebootProcess"),
                "and now: " + hardest(guard, 1));
            for (int process = 1; process < 6; process++) {
                Guard.Verdict judged =
                    guard.judgeProcess(1, process, Guard.Kind.REBOOT_AND_DELETE,
                        Guard.Kind.REBOOT_AND_DELETE);
                Guard.Verdict told =
                    guard.killProcess(1, process, Guard.Kind.REBOOT_AND_DELETE,
                        Guard.Kind.REBOOT_AND_DELETE, 7);
                check(judged.toString().equals(told.toString()), "p" + process + ": " + judged);
            }
            check(guard.audit().contains("\"tear\":7,\"value\":\"p5\""),
                "a kill by number is one by name");
            check(guard.journalLength() == 7 && children() == 1,
                "nothing is entered, and nothing is left running");
            Guard.ActRefused stranger = thrown(Guard.ActRefused.class, () -> guard.killable(9));
            check(stranger.refusal() == Guard.Refusal.STRANGER, "there is no actor 9");
            for (int process : new int[] {-1, 6}) {
                thrown(IllegalArgumentException.class,
                    () -> guard.killProcess(1, process, Guard.Kind.REBOOT));
            }
            thrown(IllegalArgumentException.class, () -> guard.killable(-1));
            check(guard.journalLength() == 7, "nothing was sent");
        }
        String text =
            Files.readString(config).replaceFirst("journal_limit = \\d+", "journal_limit = 1");
        Path one = Files.writeString(folder.resolve("one.toml"), text);
        try (Guard guard = new Guard(one, program)) {
            guard.tick(0, 1);
            check(guard.killable(2).size() == 6, "a full journal bars no question");
            thrown(Guard.JournalFull.class, () -> guard.tick(0, 1));
        }
    }

    private static String hardest(Guard guard, int by) {
        return guard.killable(by).stream()
            .map(it -> it.map(kind -> kind.word).orElse("-"))
            .collect(Collectors.joining(" "));
    }

    private void configs() throws IOException {
        String text = Files.readString(config);
        String[][] faults = {
            {"config: Toml", "="},
            {"config: Limit JournalLimit",
                text.replaceFirst("journal_limit = \\d+", "journal_limit = 0")},
            {"config: Policy 0", text.replace("Across(2,zoneid,One())", "Across(2, zoneid,One())")},
            {"config: PolicyUnmet 0", text.replace("Across(2,", "Across(4,")},
        };
        for (String[] one : faults) {
            Path bad = Files.writeString(folder.resolve("bad.toml"), one[1]);
            Guard.ConfigRefused refused =
                thrown(Guard.ConfigRefused.class, () -> new Guard(bad, program));
            check(refused.getMessage().equals(one[0]), refused.getMessage());
        }
        Guard.GuardEnded ended =
            thrown(Guard.GuardEnded.class, () -> new Guard(folder.resolve("none.toml"), program));
        check(ended.fault().equals("read fault"), ended.getMessage());
    }

    private void fullJournal() throws IOException {
        String text =
            Files.readString(config).replaceFirst("journal_limit = \\d+", "journal_limit = 2");
        Path small = Files.writeString(folder.resolve("small.toml"), text);
        try (Guard guard = new Guard(small, program)) {
            guard.tick(0, 1);
            guard.tick(0, 1);
            thrown(Guard.JournalFull.class, () -> guard.tick(0, 1));
            thrown(Guard.JournalFull.class, () -> guard.up(0, 1));
            check(guard.journalLength() == 2 && guard.audit().lines().count() == 3,
                "two entries stand");
        }
    }

    private void ends() throws IOException {
        Guard closed = open();
        closed.tick(0, 1);
        closed.close();
        closed.close();
        thrown(Guard.GuardEnded.class, () -> closed.tick(0, 1));
        check(closed.journalLength() == 1, "the audit stays");
        check(children() == 0, "nothing runs");
        Guard killed = open();
        ProcessHandle.current().children().forEach(ProcessHandle::destroyForcibly);
        thrown(Guard.GuardEnded.class, () -> killed.tick(0, 1));
        thrown(Guard.GuardEnded.class, () -> killed.tick(0, 1));
        killed.close();
        Guard untold = open();
        ProcessHandle.current().children().forEach(ProcessHandle::destroyForcibly);
        thrown(Guard.GuardEnded.class, () -> {
            untold.close();
            return null;
        });
        thrown(Guard.GuardEnded.class, () -> new Guard(config, folder.resolve("none").toString()));
        thrown(Guard.GuardEnded.class, () -> new Guard(config, "/bin/echo"));
        thrown(Guard.GuardEnded.class, () -> new Guard(config, "/bin/false"));
        String odd =
            script("odd", "echo '{\"audit\":2}'\nread line\necho '{\"act\":1}'\nread line\n");
        try (Guard guard = new Guard(config, odd)) {
            thrown(Guard.GuardEnded.class, () -> guard.tick(0, 1));
        }
        String loud =
            script("loud", "head -c 1000000 /dev/zero >&2\nexec " + program + " \"$@\"\n");
        try (Guard guard = new Guard(config, loud)) {
            check(guard.tick(0, 1) == 1, "much on standard error blocks nothing");
        }
        Guard odds = open();
        thrown(IllegalArgumentException.class, () -> odds.ask("{}\n{}"));
        String tick = "{\"by\":0,\"act\":{\"tick\":{\"ticks\":1}}}";
        thrown(Guard.GuardEnded.class, () -> odds.ask(tick));
        thrown(Guard.GuardEnded.class, odds::sight);
        check(children() == 0, "nothing runs");
    }

    private void silence() throws IOException {
        String silent = script("silent", "echo '{\"audit\":2}'\nexec sleep 600\n");
        try (Guard guard = new Guard(config, silent, Duration.ofMillis(500))) {
            Guard.GuardEnded ended = thrown(Guard.GuardEnded.class, () -> guard.tick(0, 1));
            check(ended.getMessage().startsWith("no answer in "), ended.getMessage());
        }
        check(children() == 0, "nothing runs");
    }

    private String script(String name, String text) throws IOException {
        Path path = Files.writeString(folder.resolve(name), "#!/bin/sh\n" + text);
        Files.setPosixFilePermissions(path, PosixFilePermissions.fromString("rwxr-xr-x"));
        return path.toString();
    }

    private static long children() {
        return ProcessHandle.current().children().filter(ProcessHandle::isAlive).count();
    }

    /** A call that may throw, with or without an answer. */
    private interface Call {
        Object make() throws Exception;
    }

    private interface Act {
        void make() throws Exception;
    }

    private <T extends Throwable> T thrown(Class<T> kind, Act act) {
        return thrown(kind, (Call) () -> {
            act.make();
            return null;
        });
    }

    private <T extends Throwable> T thrown(Class<T> kind, Call call) {
        try {
            call.make();
        } catch (Throwable fault) {
            if (kind.isInstance(fault)) {
                passed++;
                return kind.cast(fault);
            }
            throw new AssertionError("another fault than " + kind, fault);
        }
        throw new AssertionError("nothing was thrown, and " + kind + " was to be");
    }

    private void check(boolean holds, String what) {
        require(holds, what);
        passed++;
    }

    private static void require(boolean holds, String what) {
        if (!holds) {
            throw new AssertionError(what);
        }
    }
}
