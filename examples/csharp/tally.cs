// Tally, a game of one number, and a word of player 2 that comes late: tally.c in C#.
using System;
using System.Runtime.InteropServices;
using static Fazgrond;

public static unsafe class Tally
{
    const int Slots = 257;
    static ulong state;
    static readonly ulong[] saved = new ulong[Slots];

    static void Must(int code)
    {
        if (code != Ok)
            throw new InvalidOperationException("refused: " + code);
    }

    // A closed handle, where the garbage collector doesn't move it.
    static void* Handle()
    {
        var at = Marshal.AllocHGlobal(sizeof(Session));
        Marshal.Copy(new byte[sizeof(Session)], 0, at, sizeof(Session));
        return (void*)at;
    }

    // Ten times the number, and of each player the number times the word, or 5 if the player has left.
    static ulong Stepped(ulong number, Row* row)
    {
        ulong sum = 10 * number;
        for (int at = 0; at < row->Count; at++)
            sum += (row->Gone >> at & 1) != 0 ? 5 : (ulong)(at + 1) * row->Words[at];
        return sum % 1000000;
    }

    static void CarryOut(Request* request)
    {
        switch (request->Kind)
        {
        case Load:
            state = saved[request->Slot];
            Console.WriteLine("  load slot {0}: state {1}", request->Slot, state);
            break;
        case Save:
            saved[request->Slot] = state;
            Console.WriteLine("  save slot {0}", request->Slot);
            break;
        case Step:
            state = Stepped(state, &request->Row);
            Console.WriteLine("  step {0} {1}: state {2}", request->Row.Words[0], request->Row.Words[1], state);
            break;
        case Free:
            Console.WriteLine("  free slot {0}", request->Slot);
            break;
        }
    }

    static void CarryOutAll(Session* session)
    {
        const int Room = 16;
        var requests = stackalloc Request[Room];
        for (uint count; (count = (uint)fazgrond_take_requests(session, requests, (UIntPtr)Room)) > 0;)
            for (uint at = 0; at < count; at++)
                CarryOut(&requests[at]);
    }

    static void Play(Session* session)
    {
        Reached reached;
        Must(fazgrond_add_local_input(session, 1, 1));
        Must(fazgrond_advance_frame(session, &reached));
        CarryOutAll(session);
        Console.WriteLine("frame {0} from {1} rerun {2} state {3}", reached.Frame, reached.From, reached.Rerun, state);
    }

    public static void Main()
    {
        var session = (Session*)Handle();
        var settings = fazgrond_settings_for(2);
        uint repeated, settled;
        Row row;

        settings.Local = 1;
        Must(fazgrond_open(session, &settings));
        state = saved[0] = 0;    // the opening
        Play(session);
        Play(session);

        Console.WriteLine("player 2 gave 3 in frame 0");
        Must(fazgrond_remote_input(session, 2, 0, 3, &repeated));
        Must(fazgrond_synchronize_input(session, &row));
        CarryOutAll(session);

        Must(fazgrond_settled(session, &settled));
        Console.WriteLine("settled {0} state {1}", settled, state);
        fazgrond_close(session);
        Marshal.FreeHGlobal((IntPtr)session);
    }
}
