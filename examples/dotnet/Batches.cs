// Runs examples/batches.toml over its records, and compares the report with the one that is stored. It takes the folder of examples.

using System;
using System.IO;
using Bevelrose;

static class Batches
{
    static int Main(string[] arguments)
    {
        var folder = arguments.Length > 0 ? arguments[0] : "..";
        try
        {
            Network.Check("format = 2");
        }
        catch (RefusalException refusal)
        {
            Console.WriteLine($"format 2 is refused: {refusal.Message}");
        }
        using (var network = new Network(File.ReadAllText(Path.Combine(folder, "batches.toml"))))
        {
            var outcome = network.Run(File.ReadAllText(Path.Combine(folder, "batches.csv")));
            if (outcome.Ended != Ended.Quiet || outcome.Report != File.ReadAllText(Path.Combine(folder, "batches.report")))
            {
                Console.Error.WriteLine("the report is not the one that is stored");
                return 1;
            }
            Console.WriteLine($"a report of {outcome.Report.Length} characters, as it is stored");
        }
        return 0;
    }
}
