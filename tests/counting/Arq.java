// Reads cases from standard input and writes the rows of each by Apache Jena ARQ, for compare.py.
// A case is two lines: triples `s p o .` one after the other, then algebra in ARQ's own syntax (SSE).
// An answer is a line `rows n` and n lines of cells in the order of the arguments, parted by tabs, `-` for unbound; or a line `failed why`.
// With the first argument `ref`, ARQ's reference engine evaluates the algebra operator by operator; with `main`, its usual engine.
import java.io.*;
import java.nio.charset.StandardCharsets;
import org.apache.jena.graph.*;
import org.apache.jena.riot.*;
import org.apache.jena.sparql.algebra.*;
import org.apache.jena.sparql.core.Var;
import org.apache.jena.sparql.engine.QueryIterator;
import org.apache.jena.sparql.engine.binding.Binding;
import org.apache.jena.sparql.graph.GraphFactory;
import org.apache.jena.sparql.sse.SSE;

public class Arq {
    static String cell(Node n) {
        if (n == null) return "-";
        return n.isURI() ? "<" + n.getURI() + ">" : "\"" + n.getLiteralLexicalForm() + "\"";
    }

    public static void main(String[] args) throws IOException {
        BufferedReader in = new BufferedReader(new InputStreamReader(System.in, StandardCharsets.UTF_8));
        PrintStream out = new PrintStream(new FileOutputStream(FileDescriptor.out), false, "UTF-8");
        for (String triples = in.readLine(); triples != null; triples = in.readLine()) {
            String algebra = in.readLine();
            try {
                Graph g = GraphFactory.createDefaultGraph();
                RDFDataMgr.read(g, new ByteArrayInputStream(triples.getBytes(StandardCharsets.UTF_8)), Lang.NTRIPLES);
                Op op = SSE.parseOp(algebra);
                QueryIterator rows = args[0].equals("ref") ? Algebra.execRef(op, g) : Algebra.exec(op, g);
                StringBuilder text = new StringBuilder();
                int n = 0;
                while (rows.hasNext()) {
                    Binding b = rows.next();
                    for (int i = 1; i < args.length; i++)
                        text.append(i == 1 ? "" : "\t").append(cell(b.get(Var.alloc(args[i]))));
                    text.append("\n");
                    n++;
                }
                out.print("rows " + n + "\n" + text);
            } catch (Throwable x) {
                out.print("failed " + x.toString().replace('\n', ' ') + "\n");
            }
        }
        out.flush();
    }
}
