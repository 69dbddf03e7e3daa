info complete "a {"
