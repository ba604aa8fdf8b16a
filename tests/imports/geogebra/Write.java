// Writes figures as GeoGebra files by GeoGebra's own code. SPDX-License-Identifier: Apache-2.0
import geogebra.GeoGebraPanel;
import geogebra.plugin.GgbAPI;
import java.nio.file.Files;
import java.nio.file.Paths;
import java.util.Locale;

/** Reads figures as lines of GeoGebra's input bar, each behind a line `# name`, and saves each as a file of this name in a folder. */
public class Write {
  public static void main(String[] words) throws Exception {
    GeoGebraPanel panel = new GeoGebraPanel();
    panel.setLanguage(Locale.ENGLISH);
    panel.buildGUI();
    GgbAPI api = panel.getGeoGebraAPI();
    api.setErrorDialogsActive(false);
    String name = null;
    for (String line : Files.readAllLines(Paths.get(words[0]))) {
      if (line.startsWith("#")) {
        save(api, words[1], name);
        name = line.substring(1).trim();
        api.fileNew();
      } else if (!line.trim().isEmpty() && !api.evalCommand(line.trim())) {
        throw new IllegalArgumentException(name + ": " + line);
      }
    }
    save(api, words[1], name);
    System.exit(0);
  }

  static void save(GgbAPI api, String folder, String name) throws Exception {
    if (name != null) Files.write(Paths.get(folder, name + ".ggb"), api.getGGBfile());
  }
}
