# c \
puts no
puts yes