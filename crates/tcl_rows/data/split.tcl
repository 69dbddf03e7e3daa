split a,b,,c ,
