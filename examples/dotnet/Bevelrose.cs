// Bevelrose from .NET: networks of blocks, run over records. It loads libbevelrose.so where the system's loader finds it: an installed
// package puts it there, and LD_LIBRARY_PATH names another folder.
//
//     using (var network = new Network(text))
//         var report = network.Run(records);

using System;
using System.Runtime.InteropServices;
using System.Text;

namespace Bevelrose
{
    /// <summary>Why a text was refused, or was not run: its message is the line that tells of it.</summary>
    public sealed class RefusalException : Exception
    {
        /// <summary>2 to 5, as the program flow_run ends with.</summary>
        public int Status { get; }

        internal RefusalException(int status, string line) : base(line)
        {
            Status = status;
        }
    }

    /// <summary>How a run ended.</summary>
    public enum Ended
    {
        /// <summary>Every block is done, and no record waits.</summary>
        Quiet = 0,
        /// <summary>Nothing can move any more, but a block is not done, or records wait.</summary>
        Left = 1,
        /// <summary>As many events happened as may.</summary>
        Stopped = 3
    }

    /// <summary>What a run came to, and its report.</summary>
    public struct Outcome
    {
        public Ended Ended { get; }
        public string Report { get; }

        internal Outcome(Ended ended, string report)
        {
            Ended = ended;
            Report = report;
        }
    }

    /// <summary>A network that is ready to run. It is used and disposed of on the thread that made it.</summary>
    public sealed class Network : IDisposable
    {
        // The number of the calls that this class makes.
        const uint Version = 1;

        // What tells of a refusal has at most so many bytes.
        const int Line = 128;

        IntPtr handle;
        bool isDisposed;

        static Network()
        {
            if (bevelrose_version() != Version)
                throw new NotSupportedException("libbevelrose.so has other calls than this class makes");
        }

        /// <summary>Throws a RefusalException where this text is no network.</summary>
        public static void Check(string text)
        {
            var bytes = BytesOf(text);
            var (status, line) = Answer(Line, (byte[] room, out UIntPtr length) =>
                bevelrose_check(bytes, Length(text), room, (UIntPtr)room.Length, out length));
            if (status != 0)
                throw new RefusalException(status, line);
        }

        /// <summary>Makes the network of this text ready, or throws a RefusalException.</summary>
        public Network(string text)
        {
            var bytes = BytesOf(text);
            var (status, line) = Answer(Line, (byte[] room, out UIntPtr length) =>
                bevelrose_open(ref handle, bytes, Length(text), room, (UIntPtr)room.Length, out length));
            if (status != 0)
                throw new RefusalException(status, line);
        }

        /// <summary>Runs the network over these records until nothing can move, or so many events have happened.</summary>
        public Outcome Run(string records, ulong limit = ulong.MaxValue)
        {
            if (isDisposed)
                throw new ObjectDisposedException(nameof(Network));
            var bytes = BytesOf(records);
            var (status, text) = Answer(4096, (byte[] room, out UIntPtr length) =>
                bevelrose_run(ref handle, bytes, Length(records), limit, room, (UIntPtr)room.Length, out length));
            if (!Enum.IsDefined(typeof(Ended), (int)status) || text == "ids")
                throw new RefusalException(status, text);
            return new Outcome((Ended)status, text);
        }

        public void Dispose()
        {
            isDisposed = true;
            bevelrose_close(ref handle);
        }

        delegate byte Call(byte[] room, out UIntPtr length);

        // Calls with this much room, and where the answer is longer once more with as much as it takes.
        static (byte, string) Answer(int size, Call call)
        {
            var room = new byte[size];
            var status = call(room, out var length);
            if ((ulong)length > (ulong)room.Length)
            {
                room = new byte[(int)length];
                status = call(room, out length);
            }
            return (status, Encoding.UTF8.GetString(room, 0, (int)length));
        }

        // One byte more than there are, so that the array is never empty.
        static byte[] BytesOf(string text)
        {
            var bytes = new byte[Encoding.UTF8.GetByteCount(text) + 1];
            Encoding.UTF8.GetBytes(text, 0, text.Length, bytes, 0);
            return bytes;
        }

        static UIntPtr Length(string text) => (UIntPtr)Encoding.UTF8.GetByteCount(text);

        const string Library = "bevelrose";

        [DllImport(Library)]
        static extern uint bevelrose_version();

        [DllImport(Library)]
        static extern byte bevelrose_check(byte[] text, UIntPtr textLength, [Out] byte[] room, UIntPtr roomLength, out UIntPtr length);

        [DllImport(Library)]
        static extern byte bevelrose_open(
            ref IntPtr network, byte[] text, UIntPtr textLength, [Out] byte[] room, UIntPtr roomLength, out UIntPtr length);

        [DllImport(Library)]
        static extern byte bevelrose_run(
            ref IntPtr network, byte[] records, UIntPtr recordsLength, ulong limit, [Out] byte[] room, UIntPtr roomLength,
            out UIntPtr length);

        [DllImport(Library)]
        static extern void bevelrose_close(ref IntPtr network);
    }
}
