class Nulls {
    Nulls next;
    int v;

    int of(int x) {
        Nulls a = null;
        int y = x;
        if (x != 3) {
            y++;
        }
        while (y > 5 && y < 40) {
            a = link(a, y > 20 ? 2 : 3);
            y += 7;
        }
        Nulls b = null;
        if (y % 2 != 0) {
            b = new Nulls();
        } else if (y % 3 == 0) {
            y++;
        }
        b = take(null, y > 3 ? b : null, x > 7 || y < 2);
        if (x == 7) {
            return a.v;
        }
        return b.v + (x == 12 ? a.next.next.next.v : 1);
    }

    Nulls link(Nulls to, int by) {
        Nulls made = new Nulls();
        made.next = to;
        made.v = by;
        return made;
    }

    Nulls take(Nulls a, Nulls b, boolean which) {
        Nulls c = which ? b : a;
        c = which && v == 0 ? this : c;
        return c;
    }
}
