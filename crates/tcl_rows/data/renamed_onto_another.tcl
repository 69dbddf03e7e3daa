rename set puts
