/** Every comparison, of constants, locals, fields and calls, in ifs and as values, and short circuits. */
class Compares {
    int f;
    boolean seen;

    int of(int x) {
        f = 7;
        int bits = 0;
        if (x < 7) bits += 1;
        if (x <= 7) bits += 2;
        if (x > 7) bits += 4;
        if (x >= 7) bits += 8;
        if (x == 7) bits += 16;
        if (x != 7) bits += 32;
        if (f < x) bits += 64;
        if (f <= x) bits += 128;
        if (this.g() > x) bits += 256;
        if (this.g() >= this.f) bits += 512;
        return more(x, bits);
    }

    int more(int x, int bits) {
        if (x <= Integer.MAX_VALUE) bits += 1024;
        if (x > Integer.MAX_VALUE - 1) bits += 2048;
        if (x < 0) bits += 4096;
        if (x >= 0) bits += 8192;
        if (x > 0) bits += 16384;
        if (x <= 0) bits += 32768;
        if (g() <= g() - x) bits += 65536;
        if (x / 2 > f / 2) bits += 131072;
        return bits + flags(x, x > 3 && x < 20 || x == 25);
    }

    int flags(int x, boolean in) {
        boolean out = !in;
        boolean both = in && touch() || out == (x > 60);
        seen = both != seen;
        boolean never = x < x;
        return (in ? 1 : 0) + (both ? 2 : 0) + (seen ? 4 : 0) + (never || !both ? 8 : 16);
    }

    boolean touch() {
        f++;
        return f % 2 == 0;
    }

    int g() {
        return f + 1;
    }
}
