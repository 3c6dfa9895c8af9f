import java.io.BufferedInputStream;
import java.io.ByteArrayOutputStream;
import java.io.IOException;
import java.io.InputStream;
import java.io.OutputStream;
import java.lang.ref.Cleaner;
import java.nio.charset.StandardCharsets;
import java.nio.file.Files;
import java.nio.file.Path;
import java.time.Duration;
import java.util.ArrayList;
import java.util.Collection;
import java.util.EnumSet;
import java.util.List;
import java.util.Objects;
import java.util.Optional;
import java.util.OptionalInt;
import java.util.OptionalLong;
import java.util.Set;
import java.util.TreeSet;
import java.util.concurrent.Future;
import java.util.concurrent.ScheduledThreadPoolExecutor;
import java.util.concurrent.TimeUnit;
import java.util.function.Function;
import java.util.function.Predicate;
import java.util.regex.Matcher;
import java.util.regex.Pattern;
import java.util.stream.Collectors;
import java.util.stream.IntStream;

/**
 * Answers each order to kill with the hardest kill that the policies tolerate: {@code faultyard
 * guard}, held by its pipe. Java 11 or later, this file alone.
 *
 * <pre>{@code
 * try (Guard guard = new Guard(Path.of("two.toml"))) {
 *     Guard.Verdict verdict = guard.kill(1, Guard.Key.PROCESS, "p0", Guard.Kind.REBOOT_AND_DELETE);
 *     verdict.struck().ifPresent(kind -> ...); // do this to p0, and then
 *     guard.up(0, 0);
 * }
 * }</pre>
 *
 * <p>The first argument of each act is the number of its actor in the cluster file. An act that the
 * guard refuses throws {@link ActRefused}, since it wasn't made. A kill that a rule bars isn't
 * refused: its verdict says what to do. An argument that no guard reads throws {@code
 * IllegalArgumentException}, and nothing is sent.
 *
 * <p>Threads may share a guard: each call waits for the one before, and gets its own answer.
 */
public final class Guard implements AutoCloseable {
    private static final String HEADER = "{\"audit\":2}\n";
    private static final String TOLD = "{\"told\":";
    private static final int MOST_LINE = 65_536;
    private static final int MOST_MEMBERS = 1024;
    private static final int MOST_FAULT = 65_536;
    private static final Duration PATIENCE = Duration.ofSeconds(10);
    private static final Pattern NAME = Pattern.compile("[A-Za-z0-9_][A-Za-z0-9_-]{0,31}");
    private static final Pattern PROCESS = Pattern.compile("\"processid\":\"([^\"]+)\"");
    private static final Pattern LOSS =
        Pattern.compile("\"any\":(\\d{1,9}),\"policies\":\\[(.*?)\\],\"groups\"");
    private static final Cleaner CLEANER = Cleaner.create();
    private static final ScheduledThreadPoolExecutor WATCH = watch();

    /** What a fault does to a process, from the mildest to the hardest. {@code CLOG} is no kill. */
    public enum Kind {
        /** Down; nothing on its disk is lost. */
        REBOOT_PROCESS("RebootProcess"),
        /** Down; what its disk hasn't synced may be lost. */
        REBOOT("Reboot"),
        /** Down, and its disk is emptied. */
        REBOOT_AND_DELETE("RebootAndDelete"),
        /** Gone for good, and its disk is emptied. */
        KILL_INSTANTLY("KillInstantly"),
        /** Its messages are held. It stands in grants and protections only. */
        CLOG("Clog");

        /** The word in an audit. */
        public final String word;

        Kind(String word) {
            this.word = word;
        }

        /** Whether the data of the process goes. */
        public boolean emptiesDisk() {
            return this == REBOOT_AND_DELETE || this == KILL_INSTANTLY;
        }

        /** Whether the process never comes back. */
        public boolean isFinal() {
            return this == KILL_INSTANTLY;
        }
    }

    /** The part of a process's place by which an order names it. */
    public enum Key {
        PROCESS("processid"),
        MACHINE("machineid"),
        ZONE("zoneid"),
        DATA_HALL("data_hall"),
        DATA_CENTER("dcid");

        /** The word in an audit. */
        public final String word;

        Key(String word) {
            this.word = word;
        }
    }

    /** Why the kind that was ordered is barred: the first rule that holds. */
    public enum Rule {
        /** No process that is left has the value. */
        NO_TARGET("NoTarget"),
        /** No grant of the actor covers the process that is named. */
        NO_GRANT("NoGrant"),
        /** The process that is named is protected. */
        PROTECTED("Protected"),
        /** The destroyed processes would satisfy the policy that is named. */
        TOO_MANY_DESTROYED("TooManyDestroyed"),
        /** The processes left wouldn't satisfy the policy that is named. */
        TOO_FEW_LEFT("TooFewLeft");

        /** The word in an audit. */
        public final String word;

        Rule(String word) {
            this.word = word;
        }
    }

    /** Why an act is refused: the first reason that holds. docs/FORMATS.md says when each does. */
    public enum Refusal {
        STRANGER("Stranger"),
        WRONG_ROLE("WrongRole"),
        TOO_MANY("TooMany"),
        NO_POLICY("NoPolicy"),
        NO_PROCESS("NoProcess"),
        GONE("Gone"),
        TEAM_SHORT("TeamShort"),
        NO_TEAM("NoTeam"),
        PAYLOAD("Payload"),
        NET_FULL("NetFull"),
        NO_MESSAGE("NoMessage"),
        CLOGGED("Clogged"),
        NOT_UP("NotUp"),
        NO_RECORD("NoRecord"),
        NOT_MEMBER("NotMember"),
        ACKED("Acked"),
        IS_UP("IsUp"),
        CLOCK_END("ClockEnd"),
        NO_ACTOR("NoActor"),
        FULL("Full"),
        NO_SUCH("NoSuch"),
        NO_COPY("NoCopy"),
        IS_MEMBER("IsMember"),
        NOT_DESTROYED("NotDestroyed"),
        STILL_NEEDS("StillNeeds");

        /** The word in an audit. */
        public final String word;

        Refusal(String word) {
            this.word = word;
        }
    }

    /** What the delivery of a message did. */
    public enum Delivery {
        /** It was a store message. */
        STORED,
        /** It was an acknowledgement, and the record isn't acknowledged yet. */
        MARKED,
        /** It was an acknowledgement, and the record is acknowledged now. */
        ACKNOWLEDGED
    }

    /** The rule that bars an order, or none. */
    public static class Ruling {
        private final Rule rule;
        private final int named;

        private Ruling(Rule rule, int named) {
            this.rule = rule;
            this.named = named;
        }

        /** The rule that bars what was ordered; empty where nothing does. */
        public Optional<Rule> rule() {
            return Optional.ofNullable(rule);
        }

        /** The number of the process or of the policy that the rule names. */
        public OptionalInt named() {
            return named < 0 ? OptionalInt.empty() : OptionalInt.of(named);
        }

        @Override
        public String toString() {
            return "rule " + (rule == null ? "none" : rule + (named < 0 ? "" : " " + named));
        }
    }

    /** The reply to a kill. */
    public static final class Verdict extends Ruling {
        private final Kind struck;

        private Verdict(Ruling ruling, Kind struck) {
            super(ruling.rule, ruling.named);
            this.struck = struck;
        }

        /**
         * Do this to every process of the target that isn't gone. Where it is empty, do nothing.
         */
        public Optional<Kind> struck() {
            return Optional.ofNullable(struck);
        }

        @Override
        public String toString() {
            return "struck " + (struck == null ? "none" : struck) + ", " + super.toString();
        }
    }

    /** A new record. */
    public static final class Begun {
        /** The number of the record. */
        public final int record;
        /** The number of its first store message, as an unsigned number. */
        public final long first;

        private Begun(int record, long first) {
            this.record = record;
            this.first = first;
        }
    }

    /** What a sync did. */
    public static final class Synced {
        /** How many writes were synced. */
        public final int count;
        /** The number of their first acknowledgement message, as an unsigned number. */
        public final long first;

        private Synced(int count, long first) {
            this.count = count;
            this.first = first;
        }
    }

    /** The state of a process of the simulated cluster. */
    public static final class State {
        /** It runs. */
        public final boolean up;
        /** Its messages are held back. */
        public final boolean clogged;
        /** It was emptied or killed for good, and not healed since. */
        public final boolean destroyed;
        /** It was killed for good. */
        public final boolean gone;
        /** Until when it is clogged; empty where it isn't. */
        public final OptionalLong cloggedUntil;
        /** What is barred on it, for every actor. */
        public final Set<Kind> barred;

        private State(Text told) {
            told.expect("{\"clogged\":");
            cloggedUntil = told.orNull();
            clogged = cloggedUntil.isPresent();
            destroyed = told.truth(",\"destroyed\":");
            told.truth(",\"down\":"); // neither up nor gone
            gone = told.truth(",\"gone\":");
            told.expect(",\"protected\":");
            barred = Set.copyOf(told.list(Guard::kind));
            up = told.truth(",\"up\":");
            told.expect("}");
        }

        @Override
        public String toString() {
            return (up ? "up" : "down") + (clogged ? ", clogged" : "")
                + (gone ? ", gone" : destroyed ? ", destroyed" : "");
        }
    }

    /** What became of a record. */
    public static final class Kept {
        /** It is acknowledged. */
        public final boolean acked;
        /** Once it is acknowledged, the least member of its team that keeps it. */
        public final OptionalInt keeper;
        /** The processes that have it synced. */
        public final Set<Integer> synced;
        /** The number of its team. */
        public final int team;

        private Kept(Text told) {
            acked = told.truth("{\"acked\":");
            told.expect(",\"keeper\":");
            keeper = whole(told.orNull());
            told.expect(",\"synced\":");
            synced = numbers(told);
            told.expect(",\"team\":");
            team = (int) told.number();
            told.expect("}");
        }
    }

    /** The time, and what there is to do next. */
    public static final class Sight {
        /** The least message that may be delivered, as an unsigned number. */
        public final OptionalLong deliverable;
        /** The time. */
        public final long now;
        /** The least process to start. */
        public final OptionalInt sleeping;
        /** The least process to sync. */
        public final OptionalInt unsynced;

        private Sight(Text told) {
            told.expect("{\"deliverable\":");
            deliverable = told.orNull();
            told.expect(",\"now\":");
            now = told.number();
            told.expect(",\"sleeping\":");
            sleeping = whole(told.orNull());
            told.expect(",\"unsynced\":");
            unsynced = whole(told.orNull());
            told.expect("}");
        }
    }

    /** How much of the cluster may still be lost: any so many processes, whichever they are. */
    public static final class Borne {
        /** So many may be emptied. */
        public final int emptied;
        /** So many may be killed for good. */
        public final int gone;
        /** Some set of one more may not be emptied; where none was found, more may be borne. */
        public final boolean emptiedExact;
        /** The same of those killed for good. */
        public final boolean goneExact;

        private Borne(Loss emptied, Loss gone) {
            this.emptied = emptied.any;
            this.gone = gone.any;
            this.emptiedExact = emptied.isExact;
            this.goneExact = gone.isExact;
        }

        @Override
        public String toString() {
            return "emptied " + (emptiedExact ? "" : "at least ") + emptied
                + ", gone " + (goneExact ? "" : "at least ") + gone;
        }
    }

    /** The base of all that a guard throws, but for {@code IllegalArgumentException}. */
    public static class GuardException extends RuntimeException {
        private static final long serialVersionUID = 1;

        private GuardException(String message, Throwable cause) {
            super(message, cause);
        }
    }

    /** The cluster file is refused; the message is the fault line, as {@code config: Policy 0}. */
    public static final class ConfigRefused extends GuardException {
        private static final long serialVersionUID = 1;

        private ConfigRefused(String fault) {
            super(fault, null);
        }
    }

    /** The guard refused an act; the journal has its entry. */
    public static final class ActRefused extends GuardException {
        private static final long serialVersionUID = 1;
        private final Refusal refusal;
        private final int named;

        private ActRefused(Refusal refusal, int named) {
            super("refused: " + refusal.word + (named < 0 ? "" : " " + named), null);
            this.refusal = refusal;
            this.named = named;
        }

        /** The reason. */
        public Refusal refusal() {
            return refusal;
        }

        /** The policy of {@code TEAM_SHORT}, or the record of {@code STILL_NEEDS}. */
        public OptionalInt named() {
            return named < 0 ? OptionalInt.empty() : OptionalInt.of(named);
        }
    }

    /** The journal has as many entries as the cluster file allows. */
    public static final class JournalFull extends GuardException {
        private static final long serialVersionUID = 1;

        private JournalFull(String fault) {
            super(fault, null);
        }
    }

    /** The program isn't there, ended by itself, or isn't faultyard. */
    public static final class GuardEnded extends GuardException {
        private static final long serialVersionUID = 1;
        private final String fault;

        private GuardEnded(String why, String fault, Throwable cause) {
            super(fault.isEmpty() ? why : why + ": " + fault, cause);
            this.fault = fault;
        }

        /** The fault line of the program, or nothing. */
        public String fault() {
            return fault;
        }
    }

    private final Path config;
    private final String program;
    private final Duration timeout;
    private Process process;
    private OutputStream acts;
    private InputStream answers;
    private InputStream errors;
    private final ByteArrayOutputStream audit = new ByteArrayOutputStream();
    private List<String> names; // of the processes, once they were asked for
    private int entries;
    private boolean closed;
    private GuardException end;

    /** Opens a guard by the program that FAULTYARD names, else the one on PATH. */
    public Guard(Path config) {
        this(config, Objects.requireNonNullElse(System.getenv("FAULTYARD"), "faultyard"));
    }

    /** Opens a guard by this program, which has a minute for each answer. */
    public Guard(Path config, String program) {
        this(config, program, Duration.ofMinutes(1));
    }

    /** Opens a guard by this program, which is ended where an answer takes longer than this. */
    public Guard(Path config, String program, Duration timeout) {
        this.config = config;
        this.program = program;
        this.timeout = timeout;
        start();
    }

    /**
     * Opens a guard that goes on where the file of an audit ends: its journal is that of the audit.
     * Nothing is written to the file. An audit that is refused ends the guard, which the first act
     * tells by {@link GuardEnded}.
     */
    public static Guard after(Path config, Path audit, String program, Duration timeout) {
        return new Guard(config, audit, program, timeout);
    }

    private Guard(Path config, Path after, String program, Duration timeout) {
        this.config = config;
        this.program = program;
        this.timeout = timeout;
        byte[] before;
        try {
            before = Files.readAllBytes(after);
        } catch (IOException fault) {
            throw new GuardEnded("the audit can't be read", fault.getMessage(), fault);
        }
        run("--after", after.toString());
        audit.writeBytes(before);
        for (byte one : before) {
            entries += one == '\n' ? 1 : 0;
        }
        entries--; // the header
    }

    /** Starts the program, whose first word is the header of an audit. */
    private void start() {
        run();
        String header = exchange("");
        if (!header.equals(HEADER)) {
            process.destroyForcibly();
            throw ended("no header of an audit: " + header.trim(), null);
        }
        enter(header);
    }

    private void run(String... words) {
        names = null;
        List<String> command =
            new ArrayList<>(List.of(program, "guard", config.toString(), "--questions"));
        command.addAll(List.of(words));
        ProcessBuilder builder = new ProcessBuilder(command);
        try {
            // A file can't fill up, as a pipe that nobody reads would. Its name goes at once.
            Path file = Files.createTempFile("faultyard", null);
            try {
                errors = Files.newInputStream(file);
                process = builder.redirectError(file.toFile()).start();
            } finally {
                Files.delete(file);
            }
        } catch (IOException fault) {
            throw new GuardEnded("the program can't be started", fault.getMessage(), fault);
        }
        CLEANER.register(this, process::destroyForcibly);
        acts = process.getOutputStream();
        answers = new BufferedInputStream(process.getInputStream());
    }

    // Orders of role fault.

    /** Orders a kill, with the mildest kind as its floor. */
    public Verdict kill(int by, Key key, String value, Kind kind) {
        return kill(by, key, value, kind, Kind.REBOOT_PROCESS, 0);
    }

    /**
     * Orders a kill of the processes whose key has the value, by {@code kind}, or where that is
     * barred by the hardest kind down to {@code floor} that isn't. {@code tear}, an unsigned
     * number, chooses the unsynced writes that a simulated disk keeps.
     */
    public Verdict kill(int by, Key key, String value, Kind kind, Kind floor, long tear) {
        return make(by, "kill", order(key, value, kind, floor, tear), Guard::verdict);
    }

    /** Orders a kill of the process with this number, with the mildest kind as its floor. */
    public Verdict killProcess(int by, int process, Kind kind) {
        return killProcess(by, process, kind, Kind.REBOOT_PROCESS, 0);
    }

    /** What {@link #kill} does with the name of the process with this number. */
    public Verdict killProcess(int by, int process, Kind kind, Kind floor, long tear) {
        return kill(by, Key.PROCESS, nameOf(process), kind, floor, tear);
    }

    /** Holds the messages of each process of the target for so many ticks. */
    public Ruling clog(int by, Key key, String value, long ticks) {
        return make(by, "clog", clogging(key, value, ticks), Guard::ruled);
    }

    /** Ends the clogs of each process of the target. */
    public Ruling unclog(int by, Key key, String value) {
        return make(by, "unclog", target(key, value), Guard::ruled);
    }

    // Reports and acts of role storage.

    /** Reports that a process runs again. */
    public void up(int by, int process) {
        done(by, "up", "\"process\":" + number(process));
    }

    /** Reports that a destroyed process has every acknowledged record on its disk again. */
    public void heal(int by, int process) {
        done(by, "heal", "\"process\":" + number(process));
    }

    /** Forms a team of processes under a policy; the team's number. */
    public int form(int by, Collection<Integer> members, int policy) {
        require(members.size() <= MOST_MEMBERS, "over " + MOST_MEMBERS + " members");
        String rising =
            new TreeSet<>(members).stream().map(Guard::number).collect(Collectors.joining(","));
        String act = "\"members\":[" + rising + "],\"policy\":" + number(policy);
        return make(by, "form", act, reply -> (int) single(reply, "formed"));
    }

    /** Begins a record for a team, and sends a store message to each member. */
    public Begun begin(int by, int team, byte[] payload) {
        StringBuilder digits = new StringBuilder(2 * payload.length);
        for (byte one : payload) {
            digits.append(Character.forDigit((one >> 4) & 15, 16));
            digits.append(Character.forDigit(one & 15, 16));
        }
        String act = "\"payload\":\"" + digits + "\",\"team\":" + number(team);
        return make(by, "begin", act, reply -> {
            reply.expect("{\"begun\":{\"first\":");
            long first = reply.number();
            reply.expect(",\"record\":");
            int record = (int) reply.number();
            reply.expect("}}");
            return new Begun(record, first);
        });
    }

    /** Delivers a message, whose number is unsigned. */
    public Delivery deliver(int by, long message) {
        String act = "\"message\":" + Long.toUnsignedString(message);
        return make(by, "deliver", act, reply -> {
            if (reply.take("\"stored\"")) {
                return Delivery.STORED;
            }
            reply.expect("{\"marked\":");
            Delivery marked = reply.take("true") ? Delivery.ACKNOWLEDGED : Delivery.MARKED;
            reply.expect(marked == Delivery.MARKED ? "false}" : "}");
            return marked;
        });
    }

    /** Drops a message, whose number is unsigned. */
    public void lose(int by, long message) {
        done(by, "lose", "\"message\":" + Long.toUnsignedString(message));
    }

    /** Sends a member the store message of a record again; the message's number, unsigned. */
    public long resend(int by, int record, int process) {
        String act = "\"process\":" + number(process) + ",\"record\":" + number(record);
        return make(by, "resend", act, reply -> single(reply, "sent"));
    }

    /** Syncs what a process has written, and sends an acknowledgement of each write. */
    public Synced sync(int by, int process) {
        return make(by, "sync", "\"process\":" + number(process), reply -> {
            reply.expect("{\"synced\":{\"count\":");
            int count = (int) reply.number();
            reply.expect(",\"first\":");
            long first = reply.number();
            reply.expect("}}");
            return new Synced(count, first);
        });
    }

    /** Sends a record from a process that has it synced to another; the message's number. */
    public long copy(int by, int record, int from, int to) {
        String act =
            "\"from\":" + number(from) + ",\"record\":" + number(record) + ",\"to\":" + number(to);
        return make(by, "copy", act, reply -> single(reply, "sent"));
    }

    /** Puts the process {@code into} into a team, in place of its member {@code out}. */
    public void replace(int by, int team, int out, int into) {
        done(by, "replace",
            "\"into\":" + number(into) + ",\"out\":" + number(out) + ",\"team\":" + number(team));
    }

    /** Lets time pass, by an unsigned number of ticks; the time then. */
    public long tick(int by, long ticks) {
        String act = "\"ticks\":" + Long.toUnsignedString(ticks);
        return make(by, "tick", act, reply -> single(reply, "time"));
    }

    // Acts of role operator.

    /** Bars kinds on a process, for every actor. */
    public void protect(int by, int process, Set<Kind> kinds) {
        done(by, "protect", "\"kinds\":" + words(kinds) + ",\"process\":" + number(process));
    }

    /** Ends the protection of a process from kinds. */
    public void unprotect(int by, int process, Set<Kind> kinds) {
        done(by, "unprotect", "\"kinds\":" + words(kinds) + ",\"process\":" + number(process));
    }

    /** Gives an actor a grant for all processes. */
    public void give(int by, int actor, Set<Kind> kinds) {
        give(by, actor, kinds, "\"all\"");
    }

    /** Gives an actor a grant for the processes whose key has the value. */
    public void give(int by, int actor, Set<Kind> kinds, Key key, String value) {
        give(by, actor, kinds, "{" + target(key, value) + "}");
    }

    private void give(int by, int actor, Set<Kind> kinds, String scope) {
        done(by, "give",
            "\"actor\":" + number(actor) + ",\"kinds\":" + words(kinds) + ",\"scope\":" + scope);
    }

    /** Takes away an actor's grant, by its place. */
    public void take(int by, int actor, int index) {
        done(by, "take", "\"actor\":" + number(actor) + ",\"index\":" + number(index));
    }

    // Looking ahead, and beginning again.

    /** What {@link #kill} would answer now to the same order, if the journal had room. */
    public Verdict judge(int by, Key key, String value, Kind kind, Kind floor) {
        return judged(by, act("kill", order(key, value, kind, floor, 0)), Guard::verdict);
    }

    /** What {@link #killProcess} would answer now to the same order, if the journal had room. */
    public synchronized Verdict judgeProcess(int by, int process, Kind kind, Kind floor) {
        return judge(by, Key.PROCESS, nameOf(process), kind, floor);
    }

    /** What {@link #clog} would answer now to the same order, if the journal had room. */
    public Ruling judgeClog(int by, Key key, String value, long ticks) {
        return judged(by, act("clog", clogging(key, value, ticks)), Guard::ruled);
    }

    private <T> T judged(int by, String act, Function<Text, T> read) {
        return ask("judge", "\"act\":" + act + ",\"by\":" + number(by), read);
    }

    /**
     * Of each process, by its number, the kind by which a kill of it alone would strike now,
     * ordered by {@code KILL_INSTANTLY}; empty where nothing would strike. Once one is killed,
     * fewer may be.
     */
    public List<Optional<Kind>> killable(int by) {
        return told("killable", "\"actor\":" + number(by), told -> told.list(Guard::struck))
            .orElseThrow(() -> new ActRefused(Refusal.STRANGER, -1));
    }

    /**
     * Opens a second guard with the same journal, to look ahead: what is done with one changes
     * nothing of the other, and each is closed. Its program reads the cluster file, and makes the
     * acts of the journal once more. Throws {@link GuardEnded} where that gives another journal, as
     * where the file was changed.
     */
    public synchronized Guard tryCopy() {
        requireOpen();
        try {
            Path file = Files.createTempFile("faultyard", null);
            try {
                Files.write(file, audit.toByteArray());
                Guard other = after(config, file, program, timeout);
                other.sight(); // which tells that the file is read
                return other;
            } finally {
                Files.delete(file);
            }
        } catch (IOException fault) {
            throw new GuardEnded("the audit can't be copied", fault.getMessage(), fault);
        }
    }

    /**
     * Puts the guard back to where nothing happened yet, with no entry in its journal. Its program
     * is ended and started again, and reads the cluster file again. Throws what a constructor
     * throws, and is at its end then.
     */
    public synchronized void reset() {
        requireOpen();
        GuardException told = ended("the guard is reset", null);
        if (process.exitValue() != 0) {
            throw told;
        }
        end = null;
        entries = 0;
        audit.reset();
        start();
    }

    private void requireOpen() {
        if (closed) {
            throw new GuardEnded("the guard is closed", "", null);
        }
        if (end != null) {
            throw end;
        }
    }

    // Questions, and the end.

    /** The number of the process with this name, if there is one. */
    public synchronized OptionalInt process(String name) {
        int number = names().indexOf(name(name));
        return number < 0 ? OptionalInt.empty() : OptionalInt.of(number);
    }

    /** How many processes there are; they are numbered from 0. */
    public synchronized int processCount() {
        return names().size();
    }

    /**
     * Whom a kill is about: the processes whose key has the value and that aren't gone for good.
     * Ask before the kill, which may be for good.
     */
    public Set<Integer> targets(Key key, String value) {
        return told("targets", target(key, value), Guard::numbers).orElseThrow();
    }

    /** Whether a process was emptied or killed for good, and not healed since. */
    public boolean isDestroyed(int process) {
        return state(process).filter(it -> it.destroyed).isPresent();
    }

    /** The processes that aren't gone for good. */
    public Set<Integer> left() {
        return those(it -> !it.gone);
    }

    /** The processes that are destroyed, gone for good or not. */
    public Set<Integer> destroyed() {
        return those(it -> it.destroyed);
    }

    /** The processes that are gone for good. */
    public Set<Integer> gone() {
        return those(it -> it.gone);
    }

    /** The processes that are up. */
    public Set<Integer> upSet() {
        return those(it -> it.up);
    }

    /** The state of the process with this number, if there is one. */
    public Optional<State> state(int process) {
        return told("state", "\"process\":" + number(process), told -> {
            told.expect("{\"now\":");
            told.number();
            told.expect(",\"process\":");
            State state = new State(told);
            told.expect("}");
            return state;
        });
    }

    /** The states of all processes, by their numbers. */
    public List<State> states() {
        return told("state", "", told -> {
            told.expect("{\"now\":");
            told.number();
            told.expect(",\"processes\":");
            List<State> states = told.list(State::new);
            told.expect("}");
            return states;
        }).orElseThrow();
    }

    private Set<Integer> those(Predicate<State> are) {
        List<State> states = states();
        return IntStream.range(0, states.size())
            .filter(process -> are.test(states.get(process)))
            .boxed()
            .collect(Collectors.toCollection(TreeSet::new));
    }

    /** The first record that a process lacks before it may be healed, if it lacks one. */
    public OptionalInt needed(int process) {
        return told("needed", "\"process\":" + number(process), it -> whole(it.orNull()))
            .orElse(OptionalInt.empty());
    }

    /** What became of the record with this number, if there is one. */
    public Optional<Kept> record(int record) {
        return told("record", "\"record\":" + number(record), Kept::new);
    }

    /** Whether a record is acknowledged. */
    public boolean isAcked(int record) {
        return record(record).filter(it -> it.acked).isPresent();
    }

    /** Who keeps an acknowledged record: the least such member of its team. */
    public OptionalInt keeper(int record) {
        return record(record).map(it -> it.keeper).orElse(OptionalInt.empty());
    }

    /** The time, and what there is to do next. */
    public Sight sight() {
        return told("sight", "", Sight::new).orElseThrow();
    }

    private String nameOf(int process) {
        require(process >= 0 && process < processCount(), "there is no process " + process);
        return names().get(process);
    }

    private List<String> names() {
        requireOpen();
        if (names == null) {
            names = told("cluster", "", Guard::named).orElseThrow();
        }
        return names;
    }

    private static List<String> named(Text told) {
        return PROCESS.matcher(told.rest()).results()
            .map(it -> it.group(1))
            .collect(Collectors.toList());
    }

    /**
     * Asks any question, by its line as docs/FORMATS.md has it; what is told, as a line. What is no
     * question ends the guard.
     */
    public synchronized String ask(String line) {
        requireOpen();
        require(line.length() <= MOST_LINE && line.indexOf('\n') < 0, "no line of a question");
        String told = exchange(line + "\n");
        if (!told.startsWith(TOLD)) {
            throw misread(new Misread(told.trim()));
        }
        return told;
    }

    private synchronized <T> T ask(String name, String members, Function<Text, T> read) {
        Text told = new Text(ask("{\"ask\":" + act(name, members) + "}"));
        try {
            told.expect(TOLD);
            return reply(told, read);
        } catch (Misread fault) {
            throw misread(fault);
        }
    }

    /** What is told by the name of the question; empty where there is no such thing. */
    private <T> Optional<T> told(String name, String members, Function<Text, T> read) {
        try {
            return Optional.of(ask(name, members, told -> {
                told.expect("{\"" + name + "\":");
                T answer = read.apply(told);
                told.expect("}");
                return answer;
            }));
        } catch (ActRefused none) {
            return Optional.empty();
        }
    }

    /** The audit so far, with its header. It is answered after the end too. */
    public synchronized String audit() {
        return audit.toString(StandardCharsets.UTF_8);
    }

    /** How many entries the journal has. */
    public synchronized int journalLength() {
        return entries;
    }

    /**
     * How much of the cluster may still be lost, as the journal left it: the numbers that {@code
     * faultyard bears} tells first.
     */
    public Borne bears() {
        return told("bears", "", told -> {
            Matcher losses = LOSS.matcher(told.rest());
            return new Borne(new Loss(losses), new Loss(losses));
        }).orElseThrow();
    }

    /** The next of the two losses that {@code bears} tells. */
    private static final class Loss {
        final int any;
        final boolean isExact;

        Loss(Matcher losses) {
            if (!losses.find()) {
                throw new Misread("no loss");
            }
            any = Integer.parseInt(losses.group(1));
            // A policy that bears no more than this has the number and this word behind it.
            isExact = losses.group(2).contains("\"any\":" + any + ",\"exact\":true");
        }
    }

    /**
     * Ends the guard. Throws {@link GuardEnded} where the program ended with another status than 0,
     * unless a call has told that already.
     */
    @Override
    public synchronized void close() {
        if (closed) {
            return;
        }
        closed = true;
        if (end == null) {
            GuardException told = ended("the guard ended by itself", null);
            if (process.exitValue() != 0) {
                throw told;
            }
        }
    }

    // How an act goes.

    private void done(int by, String name, String members) {
        make(by, name, members, reply -> {
            reply.expect("\"done\"");
            return null;
        });
    }

    private synchronized <T> T make(int by, String name, String members, Function<Text, T> read) {
        String act = act(name, members);
        String line = line(by, act);
        requireOpen();
        Text entry = new Text(exchange(line));
        enter(entry.text);
        try {
            entry.expect(front(act, by));
            entries++;
            return reply(entry, read);
        } catch (Misread fault) {
            throw misread(fault);
        }
    }

    private void enter(String line) {
        audit.writeBytes(line.getBytes(StandardCharsets.US_ASCII));
    }

    private GuardException misread(Misread fault) {
        process.destroyForcibly();
        return ended("no answer of a guard: " + fault.getMessage(), fault);
    }

    private static String act(String name, String members) {
        return "{\"" + name + "\":{" + members + "}}";
    }

    private static String line(int by, String act) {
        String line = "{\"by\":" + number(by) + ",\"act\":" + act + "}";
        require(line.length() <= MOST_LINE, "the line would have over " + MOST_LINE + " bytes");
        return line + "\n";
    }

    /** The next entry, up to its reply. */
    private String front(String act, int by) {
        return "{\"act\":" + act + ",\"at\":" + entries + ",\"by\":" + by + ",\"reply\":";
    }

    private static <T> T reply(Text entry, Function<Text, T> read) {
        if (entry.take("{\"no\":[")) {
            Refusal refusal = find(Refusal.values(), it -> it.word, entry.word());
            int named = entry.take(",") ? (int) entry.number() : -1;
            entry.expect("]}}\n");
            throw new ActRefused(refusal, named);
        }
        T reply = read.apply(entry);
        entry.expect("}\n");
        return reply;
    }

    /** Sends a line, and waits for one. The guard is ended where none comes in time. */
    private String exchange(String line) {
        if (end != null) {
            throw end;
        }
        long begun = System.nanoTime();
        Future<?> watch =
            WATCH.schedule(process::destroyForcibly, timeout.toMillis(), TimeUnit.MILLISECONDS);
        try {
            acts.write(line.getBytes(StandardCharsets.US_ASCII));
            acts.flush();
            ByteArrayOutputStream answer = new ByteArrayOutputStream();
            for (int one = answers.read(); one >= 0; one = answers.read()) {
                answer.write(one);
                if (one == '\n') {
                    return answer.toString(StandardCharsets.US_ASCII);
                }
            }
            throw new IOException("the guard has ended");
        } catch (IOException fault) {
            boolean late = System.nanoTime() - begun >= timeout.toNanos();
            throw ended(late ? "no answer in " + timeout : "the guard has ended", fault);
        } finally {
            watch.cancel(false);
        }
    }

    /** Waits for the end of the process, and tells why it ended. */
    private GuardException ended(String why, Throwable cause) {
        String fault = "";
        OutputStream input = acts;
        InputStream output = answers;
        InputStream faults = errors;
        try (output; faults) {
            finish(input);
            if (!process.waitFor(PATIENCE.toSeconds(), TimeUnit.SECONDS)) {
                process.destroyForcibly().waitFor();
            }
            String told = new String(faults.readNBytes(MOST_FAULT), StandardCharsets.UTF_8);
            // A second line says where an audit that is cut is whole.
            fault = told.lines().findFirst().orElse("").trim();
        } catch (IOException broken) {
            // What is closed or read here is of a process that has ended.
        } catch (InterruptedException interrupted) {
            process.destroyForcibly();
            Thread.currentThread().interrupt();
        }
        end = exception(why, fault, cause);
        return end;
    }

    private static GuardException exception(String why, String fault, Throwable cause) {
        if (fault.startsWith("config: ")) {
            return new ConfigRefused(fault);
        }
        if (fault.equals("script: JournalFull")) {
            return new JournalFull(fault);
        }
        return new GuardEnded(why, fault, cause);
    }

    /** Ends the input of a process that may have ended before it has read all. */
    private static void finish(OutputStream input) {
        try {
            input.close();
        } catch (IOException broken) {
            // What wasn't read is no fault by itself: the process says why it ended.
        }
    }

    private static ScheduledThreadPoolExecutor watch() {
        ScheduledThreadPoolExecutor made =
            new ScheduledThreadPoolExecutor(1, work -> {
                Thread thread = new Thread(work, "faultyard-timeout");
                thread.setDaemon(true);
                return thread;
            });
        made.setRemoveOnCancelPolicy(true);
        return made;
    }

    // The words of acts and replies.

    private static void require(boolean holds, String what) {
        if (!holds) {
            throw new IllegalArgumentException(what);
        }
    }

    private static String number(int value) {
        require(value >= 0, "a number below 0: " + value);
        return Integer.toString(value);
    }

    private static String name(String value) {
        require(NAME.matcher(value).matches(),
            "no name of 1 to 32 characters A-Z a-z 0-9 _ -: " + value);
        return value;
    }

    private static String words(Set<Kind> kinds) {
        // A set of an enum goes through it in order, as an audit has the kinds.
        Set<Kind> rising = kinds.isEmpty() ? Set.of() : EnumSet.copyOf(kinds);
        return rising.stream()
            .map(kind -> "\"" + kind.word + "\"")
            .collect(Collectors.joining(",", "[", "]"));
    }

    private static String target(Key key, String value) {
        return "\"key\":\"" + key.word + "\",\"value\":\"" + name(value) + "\"";
    }

    private static String clogging(Key key, String value, long ticks) {
        return "\"key\":\"" + key.word + "\",\"ticks\":" + Long.toUnsignedString(ticks)
            + ",\"value\":\"" + name(value) + "\"";
    }

    private static String order(Key key, String value, Kind kind, Kind floor, long tear) {
        require(kind != Kind.CLOG, "no kind of kill: " + kind);
        require(floor.compareTo(kind) <= 0, "the floor " + floor + " is above the kind " + kind);
        return "\"floor\":\"" + floor.word + "\",\"key\":\"" + key.word
            + "\",\"kind\":\"" + kind.word + "\",\"tear\":" + Long.toUnsignedString(tear)
            + ",\"value\":\"" + name(value) + "\"";
    }

    private static Verdict verdict(Text reply) {
        reply.expect("{\"verdict\":{\"rule\":");
        Ruling ruling = ruling(reply);
        reply.expect(",\"struck\":");
        Kind struck = struck(reply).orElse(null);
        reply.expect("}}");
        return new Verdict(ruling, struck);
    }

    private static Optional<Kind> struck(Text told) {
        return told.take("null") ? Optional.empty() : Optional.of(kind(told));
    }

    private static Kind kind(Text told) {
        return find(Kind.values(), it -> it.word, told.word());
    }

    private static Ruling ruled(Text reply) {
        reply.expect("{\"ruled\":");
        Ruling ruling = ruling(reply);
        reply.expect("}");
        return ruling;
    }

    private static Ruling ruling(Text reply) {
        if (reply.take("null")) {
            return new Ruling(null, -1);
        }
        reply.expect("[");
        Rule rule = find(Rule.values(), it -> it.word, reply.word());
        int named = reply.take(",") ? (int) reply.number() : -1;
        reply.expect("]");
        return new Ruling(rule, named);
    }

    private static long single(Text reply, String member) {
        reply.expect("{\"" + member + "\":");
        long number = reply.number();
        reply.expect("}");
        return number;
    }

    private static Set<Integer> numbers(Text told) {
        return new TreeSet<>(told.list(it -> (int) it.number()));
    }

    private static OptionalInt whole(OptionalLong number) {
        return number.isEmpty() ? OptionalInt.empty() : OptionalInt.of((int) number.getAsLong());
    }

    private static <T> T find(T[] among, Function<T, String> word, String wanted) {
        return List.of(among).stream()
            .filter(one -> word.apply(one).equals(wanted))
            .findFirst()
            .orElseThrow(() -> new Misread("the word " + wanted));
    }

    /** What answered isn't the answer to the line that was sent. */
    private static final class Misread extends RuntimeException {
        private static final long serialVersionUID = 1;

        Misread(String what) {
            super(what);
        }
    }

    /** A text that is read from its front. An answer has one spelling, so this is all it takes. */
    private static final class Text {
        final String text;
        int at;

        Text(String text) {
            this.text = text;
        }

        boolean take(String wanted) {
            boolean isNext = text.startsWith(wanted, at);
            at += isNext ? wanted.length() : 0;
            return isNext;
        }

        void expect(String wanted) {
            if (!take(wanted)) {
                throw new Misread("no " + wanted + " at " + at + " of " + text);
            }
        }

        long number() {
            int from = at;
            while (at < text.length() && text.charAt(at) >= '0' && text.charAt(at) <= '9') {
                at++;
            }
            try {
                return Long.parseUnsignedLong(text.substring(from, at));
            } catch (NumberFormatException fault) {
                throw new Misread("no number at " + from + " of " + text);
            }
        }

        OptionalLong orNull() {
            return take("null") ? OptionalLong.empty() : OptionalLong.of(number());
        }

        boolean truth(String front) {
            expect(front);
            boolean isTrue = take("true");
            expect(isTrue ? "" : "false");
            return isTrue;
        }

        <T> List<T> list(Function<Text, T> read) {
            List<T> items = new ArrayList<>();
            expect("[");
            while (!take("]")) {
                expect(items.isEmpty() ? "" : ",");
                items.add(read.apply(this));
            }
            return items;
        }

        /** What stands before the end of a line that is told. */
        String rest() {
            int from = at;
            at = Math.max(at, text.length() - "}}\n".length());
            return text.substring(from, at);
        }

        String word() {
            expect("\"");
            int from = at;
            at = text.indexOf('"', at);
            if (at < 0) {
                throw new Misread("no word at " + from + " of " + text);
            }
            return text.substring(from, at++);
        }
    }
}
