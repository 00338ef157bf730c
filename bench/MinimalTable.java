import dk.brics.automaton.Automaton;
import dk.brics.automaton.State;
import dk.brics.automaton.Transition;
import java.nio.file.Files;
import java.nio.file.Path;
import java.util.List;

/** Reads the automaton in a file, in the form of bench/minimal_of_table, minimises copies of it with dk.brics.automaton so many
 * times, and prints how many states the last one has. */
public class MinimalTable {
    public static void main(String[] words) throws Exception {
        List<String> lines = Files.readAllLines(Path.of(words[0]));
        State[] states = new State[lines.size()];
        for (int number = 0; number < states.length; number++) {
            states[number] = new State();
        }
        for (int number = 0; number < states.length; number++) {
            String[] parts = lines.get(number).split(" ");
            states[number].setAccept(parts[0].equals("!"));
            for (int letter = 1; letter < parts.length; letter++) {
                if (!parts[letter].equals("-")) {
                    char symbol = (char) ('0' + letter);
                    states[number].addTransition(new Transition(symbol, states[Integer.parseInt(parts[letter])]));
                }
            }
        }
        Automaton automaton = new Automaton();
        automaton.setInitialState(states[0]);
        automaton.setDeterministic(true);
        Automaton.setMinimization(Automaton.MINIMIZE_HOPCROFT);
        int count = 0;
        for (int time = 0; time < Integer.parseInt(words[1]); time++) {
            Automaton minimal = automaton.clone();
            minimal.minimize();
            count = minimal.getNumberOfStates();
        }
        System.out.println(count);
    }
}
