import java.lang.invoke.MethodHandles;
import java.util.ArrayList;
import java.util.List;

/**
 * What Java makes of fields of one name in a class and above it: the classes and accesses of src/gen/javas.rs. An access names a class, a field
 * and a type, as getfield and putfield do. For each object, each access in turn writes, and then all of them read; '-' is an access that finds no
 * field. At last the language itself writes, through casts.
 */
class Hidden {
    static class A { int f; A g; }
    static class B extends A { int f; int g; }
    static class C extends B { int f; A g; }
    static class D extends A { A f; A g; }

    record Access(Class<?> named, String field, Class<?> of) {
        Object read(A object) throws Throwable {
            try {
                return MethodHandles.lookup().findGetter(named, field, of).invoke(object);
            } catch (NoSuchFieldException e) {
                return "-";
            }
        }

        void write(A object, Object value) throws Throwable {
            try {
                MethodHandles.lookup().findSetter(named, field, of).invoke(object, value);
            } catch (NoSuchFieldException e) {
            }
        }
    }

    static List<Access> accesses(A object) {
        List<Access> accesses = new ArrayList<>();
        for (Class<?> named = object.getClass(); named != Object.class; named = named.getSuperclass()) {
            for (String field : new String[] {"f", "g"}) {
                accesses.add(new Access(named, field, int.class));
                accesses.add(new Access(named, field, A.class));
            }
        }
        return accesses;
    }

    /** An int, or an object by its class, since there is one of each. */
    static String said(Object value) {
        return value instanceof A ? value.getClass().getSimpleName() : String.valueOf(value);
    }

    static void print(String what, A object) throws Throwable {
        StringBuilder line = new StringBuilder(what + ":");
        for (Access access : accesses(object)) {
            line.append(" ").append(said(access.read(object)));
        }
        System.out.println(line);
    }

    /** A C is written through casts and read by accesses. */
    static void casts() throws Throwable {
        C c = new C();
        c.f = 1;
        ((B) c).f = 2;
        ((A) c).f = 3;
        c.g = new D();
        ((B) c).g = 4;
        ((A) c).g = new B();
        print("by casts", c);
    }

    public static void main(String[] arguments) throws Throwable {
        for (int which = 0; which < 4; which++) {
            A[] objects = {new A(), new B(), new C(), new D()};
            A object = objects[which];
            int written = 0;
            for (Access access : accesses(object)) {
                written++;
                access.write(object, access.of == int.class ? (Object) written : objects[written / 4 % 4]);
                String by = access.named.getSimpleName() + "." + access.field + " " + access.of.getSimpleName();
                print("new " + said(object) + ", " + by, object);
            }
        }
        casts();
    }
}
