// Asks GeoGebra's own kernel where points go. SPDX-License-Identifier: Apache-2.0
import geogebra.GeoGebraPanel;
import geogebra.plugin.GgbAPI;
import java.io.File;
import java.io.PrintStream;
import java.util.Locale;
import java.util.Random;

/** Opens GeoGebra files, moves their free points and points on lines and circles, and writes where all points are then. */
public class Move {
  static final int ROUNDS = 6;

  public static void main(String[] words) throws Exception {
    GeoGebraPanel panel = new GeoGebraPanel();
    panel.setLanguage(Locale.ENGLISH);
    panel.buildGUI();
    GgbAPI api = panel.getGeoGebraAPI();
    api.setErrorDialogsActive(false);
    PrintStream out = new PrintStream(words[0], "UTF-8");
    Random dice = new Random(3);
    for (int k = 1; k < words.length; k++) {
      api.getApplication().loadXML(new File(words[k]), false);
      for (int round = 0; round < ROUNDS; round++) {
        if (round > 0) move(api, dice);
        out.println("@ " + words[k] + " " + round);
        for (String label : api.getAllObjectNames())
          if (api.getObjectType(label).equals("point")) out.println(label + "\t" + api.getXcoord(label) + "\t" + api.getYcoord(label));
      }
    }
    out.close();
    System.exit(0);
  }

  static void move(GgbAPI api, Random dice) {
    for (String label : api.getAllObjectNames()) {
      boolean isFree = api.isIndependent(label) || api.getConstruction().getKernel().lookupLabel(label).isPointOnPath();
      if (api.getObjectType(label).equals("point") && isFree)
        api.setCoords(label, api.getXcoord(label) + dice.nextDouble() * 3 - 1.5, api.getYcoord(label) + dice.nextDouble() * 3 - 1.5);
    }
  }
}
