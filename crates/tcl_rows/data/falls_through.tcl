switch -glob abc {a* - b {puts hit} default {puts d}}
