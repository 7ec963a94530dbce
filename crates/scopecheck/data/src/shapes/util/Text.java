package shapes.util;
public final class Text {
  public static String join(String a, int b) { return a.concat("" + b); }
}
