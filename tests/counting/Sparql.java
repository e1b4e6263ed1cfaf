// Reads queries from standard input, for editions.py: what Apache Jena's parser and translation make of a text, or its rows.
// `algebra EDITION`, a line of the text and a line of algebra in ARQ's own syntax (SSE): both as one line of algebra each, by one printer.
// `rows NAME...`, a line of triples `s p o .` one after the other and a line of the text, in SPARQL 1.1: a line `rows n` and n lines of cells in the
// order of the names, parted by tabs, `-` for unbound. Where something fails, a line `failed why`.
import java.io.*;
import java.nio.charset.StandardCharsets;
import java.util.*;
import org.apache.jena.graph.*;
import org.apache.jena.query.*;
import org.apache.jena.riot.*;
import org.apache.jena.sparql.algebra.*;
import org.apache.jena.sparql.core.Var;
import org.apache.jena.sparql.engine.QueryIterator;
import org.apache.jena.sparql.engine.binding.Binding;
import org.apache.jena.sparql.graph.GraphFactory;
import org.apache.jena.sparql.sse.SSE;

public class Sparql {
    static String cell(Node n) {
        if (n == null) return "-";
        return n.isURI() ? "<" + n.getURI() + ">" : "\"" + n.getLiteralLexicalForm() + "\"";
    }

    static String line(Op op) {
        return op.toString().replaceAll("\\s*\n\\s*", " ").trim();
    }

    static String algebra(String edition, String text, String other) {
        Syntax syntax = edition.equals("1.0") ? Syntax.syntaxSPARQL_10 : Syntax.syntaxSPARQL_11;
        return line(Algebra.compile(QueryFactory.create(text, syntax))) + "\n" + line(SSE.parseOp(other)) + "\n";
    }

    static String rows(String[] names, String triples, String text) {
        Graph g = GraphFactory.createDefaultGraph();
        RDFDataMgr.read(g, new ByteArrayInputStream(triples.getBytes(StandardCharsets.UTF_8)), Lang.NTRIPLES);
        QueryIterator rows = Algebra.execRef(Algebra.compile(QueryFactory.create(text, Syntax.syntaxSPARQL_11)), g);
        StringBuilder found = new StringBuilder();
        int n = 0;
        while (rows.hasNext()) {
            Binding b = rows.next();
            for (int i = 1; i < names.length; i++)
                found.append(i == 1 ? "" : "\t").append(cell(b.get(Var.alloc(names[i]))));
            found.append("\n");
            n++;
        }
        return "rows " + n + "\n" + found;
    }

    public static void main(String[] args) throws IOException {
        BufferedReader in = new BufferedReader(new InputStreamReader(System.in, StandardCharsets.UTF_8));
        PrintStream out = new PrintStream(new FileOutputStream(FileDescriptor.out), false, "UTF-8");
        for (String head = in.readLine(); head != null; head = in.readLine()) {
            String[] words = head.split(" ");
            String first = in.readLine(), second = in.readLine();
            try {
                out.print(words[0].equals("algebra") ? algebra(words[1], first, second) : rows(words, first, second));
            } catch (Throwable x) {
                out.print("failed " + x.toString().replace('\n', ' ') + "\n");
            }
        }
        out.flush();
    }
}
