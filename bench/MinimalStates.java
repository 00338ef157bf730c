import dk.brics.automaton.Automaton;
import dk.brics.automaton.RegExp;
import java.nio.file.Files;
import java.nio.file.Path;

/** Makes the minimal automaton of the expression in a file with dk.brics.automaton, and prints how many states it has. */
public class MinimalStates {
    public static void main(String[] words) throws Exception {
        String expression = Files.readString(Path.of(words[0])).strip();
        Automaton automaton = new RegExp(expression, RegExp.NONE).toAutomaton(true);
        automaton.determinize();
        automaton.minimize();
        System.out.println(automaton.getNumberOfStates());
    }
}
