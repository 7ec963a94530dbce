package app;
import shapes.*;
import shapes.util.Text;
public class Main {
  static int total(Shape[] all) {
    int sum = 0;
    for (int i = 0; i < all.length; i++) { sum += all[i].area(); }
    return sum;
  }
  static String show(Shape s) { return Text.join("area ", s.area()) + '\n'; }
  public static void main(String[] args) {
    Shape[] all = { new Square(2), new Square(3) };
    String out = show(all[0]) + total(all);
  }
}
