// What the makers of fazgrond.cs make, as tests/c/makers.c prints it.
using System;
using System.Linq;
using System.Runtime.CompilerServices;
using System.Runtime.InteropServices;
using static Fazgrond;

public static unsafe class Makers
{
    // A member by its name in C, and its values.
    static string Member(System.Reflection.FieldInfo field, byte* at)
    {
        var list = (FixedBufferAttribute)Attribute.GetCustomAttribute(field, typeof(FixedBufferAttribute));
        var kind = list == null ? field.FieldType : list.ElementType;
        string text = string.Concat(field.Name.Select((sign, place) => (char.IsUpper(sign) && place > 0 ? "_" : "") + char.ToLower(sign)));
        for (int one = 0; one < (list == null ? 1 : list.Length); one++)
            text += " " + (kind == typeof(ulong) ? ((ulong*)at)[one] : ((uint*)at)[one]);
        return text;
    }

    static void Tell(Type of, void* made)
    {
        var fields = of.GetFields().Select(it => Member(it, (byte*)made + (int)Marshal.OffsetOf(of, it.Name)));
        Console.WriteLine(of.Name.ToLower() + " " + string.Join(" ", fields));
    }

    public static void Main()
    {
        var two = fazgrond_settings_for(2);
        two.Local = 1 << 1;
        var five = fazgrond_settings_for(5);
        five.Local = 1 << 1 | 1 << 4;
        var match = fazgrond_match_for(2, 1);
        fazgrond_one_number(&match, 7);
        match.Draw = 5;
        match.Owners[0] = 0;
        match.Owners[1] = 1;
        var epoch = fazgrond_epoch_for(&match, &two);
        var mark = fazgrond_mark_for();
        Tell(typeof(Settings), &two);
        Tell(typeof(Settings), &five);
        Tell(typeof(Match), &match);
        Tell(typeof(Epoch), &epoch);
        Tell(typeof(Mark), &mark);
    }
}
