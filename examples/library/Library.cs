using System;
using System.Runtime.InteropServices;
using System.Text;
using System.Threading;

/// <summary>Library TEXT..: the canonical links of pure identity URIs, by four threads, each with a session over the same tables.
/// Build: mcs Library.cs, and run: mono Library.exe TEXT..</summary>
public sealed class Library : IDisposable
{
    private const string NAME = "libtdl.so.1";
    private const byte PURE = 2, CANON = 6, ANY_FILTER = 255, ANY_GCP = 0;
    private const uint OK = 0, NO = 1;
    private const int ROOM = 8192, THREADS = 4;
    private static readonly byte[] STEM = Encoding.ASCII.GetBytes("https://id.gs1.org");

    [StructLayout(LayoutKind.Sequential)]
    private struct Choice
    {
        public UIntPtr Size;
        public byte From, To, Filter, Gcp;
        public uint Flags;
    }

    [DllImport(NAME)]
    private static extern uint tdl_open(ref IntPtr handle, ref Choice choice, byte[] encoding, UIntPtr encodingLength, byte[] stem,
        UIntPtr stemLength, byte[] tables, UIntPtr tablesLength, byte[] prefixes, UIntPtr prefixesLength, byte[] answer, UIntPtr capacity,
        out UIntPtr length);

    [DllImport(NAME)]
    private static extern uint tdl_share(ref IntPtr handle, ref IntPtr other, ref Choice choice, byte[] encoding, UIntPtr encodingLength,
        byte[] stem, UIntPtr stemLength);

    [DllImport(NAME)]
    private static extern uint tdl_translate(ref IntPtr handle, byte[] text, UIntPtr textLength, byte[] answer, UIntPtr capacity,
        out UIntPtr length);

    [DllImport(NAME)]
    private static extern void tdl_close(ref IntPtr handle);

    private IntPtr handle = IntPtr.Zero;
    private readonly byte[] answer = new byte[ROOM];

    /// <summary>Opens a session over the built-in tables.</summary>
    public Library()
    {
        Choice choice = Chosen();
        UIntPtr length;
        Check(tdl_open(ref handle, ref choice, null, UIntPtr.Zero, STEM, Length(STEM), null, UIntPtr.Zero, null, UIntPtr.Zero, null,
            UIntPtr.Zero, out length));
    }

    /// <summary>Opens a session over the tables of another.</summary>
    public Library(Library other)
    {
        Choice choice = Chosen();
        Check(tdl_share(ref handle, ref other.handle, ref choice, null, UIntPtr.Zero, STEM, Length(STEM)));
    }

    private static Choice Chosen()
    {
        var size = (UIntPtr)(uint)Marshal.SizeOf(typeof(Choice));
        return new Choice { Size = size, From = PURE, To = CANON, Filter = ANY_FILTER, Gcp = ANY_GCP, Flags = 0 };
    }

    private static UIntPtr Length(byte[] bytes) { return (UIntPtr)(uint)bytes.Length; }

    private static void Check(uint status)
    {
        if (status != OK) throw new InvalidOperationException("libtdl: status " + status);
    }

    /// <summary>Returns `ok` and the translation, or `no` and the reason why there is none.</summary>
    public string Translate(string text)
    {
        byte[] bytes = Encoding.UTF8.GetBytes(text);
        UIntPtr length;
        uint status = tdl_translate(ref handle, bytes, Length(bytes), answer, Length(answer), out length);
        if (status != NO) Check(status);
        return (status == OK ? "ok " : "no ") + Encoding.ASCII.GetString(answer, 0, (int)(uint)length);
    }

    public void Dispose() { tdl_close(ref handle); }

    public static void Main(string[] texts)
    {
        var answers = new string[texts.Length];
        using (var first = new Library())
        {
            var started = new Thread[THREADS];
            for (int k = 0; k < THREADS; k++)
            {
                int from = k;
                var session = new Library(first);
                started[k] = new Thread(() =>
                {
                    using (session)
                        for (int n = from; n < texts.Length; n += THREADS) answers[n] = session.Translate(texts[n]);
                });
                started[k].Start();
            }
            foreach (Thread thread in started) thread.Join();
        }
        foreach (string text in answers) Console.WriteLine(text);
    }
}
