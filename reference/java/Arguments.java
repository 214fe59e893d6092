import java.lang.invoke.MethodHandles;
import java.lang.invoke.MethodType;
import java.util.ArrayList;
import java.util.List;

/**
 * What Java makes of methods with 0 to 4 arguments: the classes and calls of src/gen/passed.rs. A call names a class and a list of types, as
 * invokevirtual does, and gives as many arguments. For each object and each class from its own upward a line has the calls with every list of
 * ints and A's: digits that tell the object, the class whose method ran and the arguments in their order, or '-' where there is no method.
 */
class Arguments {
    static class A {
        int mark;

        int m() { return told(this, 1); }
        int m(int a) { return told(this, 1, a); }
        int m(A a) { return told(this, 1, a); }
        int m(int a, A b) { return told(this, 1, a, b); }
        int m(A a, int b) { return told(this, 1, a, b); }
        int m(int a, A b, int c) { return told(this, 1, a, b, c); }
        int m(A a, A b, int c, int d) { return told(this, 1, a, b, c, d); }
        int m(int a, int b, A c, A d) { return told(this, 1, a, b, c, d); }
    }

    static class B extends A {
        int m(int a) { return told(this, 2, a); }
        int m(A a, int b) { return told(this, 2, a, b); }
        int m(A a, A b) { return told(this, 2, a, b); }
        int m(int a, int b, int c) { return told(this, 2, a, b, c); }
        int m(int a, int b, A c, A d) { return told(this, 2, a, b, c, d); }
    }

    static class C extends B {
        int m() { return told(this, 3); }
        int m(A a, A b) { return told(this, 3, a, b); }
        int m(int a, A b, int c) { return told(this, 3, a, b, c); }
        int m(A a, A b, A c) { return told(this, 3, a, b, c); }
        int m(int a, A b, int c, A d) { return told(this, 3, a, b, c, d); }
        int m(int a, int b, A c, A d) { return told(this, 3, a, b, c, d); }
    }

    static class D extends A {
        int m(int a) { return told(this, 4, a); }
        int m(A a) { return told(this, 4, a); }
    }

    /** An int by itself, an object by its mark. */
    static int told(A object, int declared, Object... arguments) {
        int digits = 10 * object.mark + declared;
        for (Object argument : arguments) {
            digits = 10 * digits + (argument instanceof A ? ((A) argument).mark : (Integer) argument);
        }
        return digits;
    }

    /** All lists of up to four types, the shorter ones first. */
    static List<List<Class<?>>> lists() {
        List<List<Class<?>>> lists = new ArrayList<>();
        lists.add(List.of());
        for (int i = 0; lists.get(i).size() < 4; i++) {
            for (Class<?> of : new Class<?>[] {int.class, A.class}) {
                List<Class<?>> longer = new ArrayList<>(lists.get(i));
                longer.add(of);
                lists.add(longer);
            }
        }
        return lists;
    }

    /** The n-th argument is n, or the object at n among the four, counted from 0 and around. */
    static String called(A[] objects, A receiver, Class<?> named, List<Class<?>> list) throws Throwable {
        List<Object> given = new ArrayList<>(List.of(receiver));
        for (int n = 1; n <= list.size(); n++) {
            given.add(list.get(n - 1) == int.class ? (Object) n : objects[n % 4]);
        }
        try {
            return String.valueOf(MethodHandles.lookup().findVirtual(named, "m", MethodType.methodType(int.class, list)).invokeWithArguments(given));
        } catch (NoSuchMethodException e) {
            return "-";
        }
    }

    public static void main(String[] arguments) throws Throwable {
        A[] objects = {new A(), new B(), new C(), new D()};
        for (int i = 0; i < 4; i++) {
            objects[i].mark = 5 + i;
        }
        for (A receiver : objects) {
            for (Class<?> named = receiver.getClass(); named != Object.class; named = named.getSuperclass()) {
                StringBuilder line = new StringBuilder("new " + receiver.getClass().getSimpleName() + ", " + named.getSimpleName() + ".m:");
                for (List<Class<?>> list : lists()) {
                    line.append(" ").append(called(objects, receiver, named, list));
                }
                System.out.println(line);
            }
        }
    }
}
