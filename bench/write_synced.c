/* Writes files of one size into a new folder and syncs each of them, and at the end the folder, once: what bench/extract measures
   extract of many small files against. write_synced FOLDER COUNT SIZE */
#include <fcntl.h>
#include <stdio.h>
#include <stdlib.h>
#include <sys/stat.h>
#include <unistd.h>

int main(int count, char **words)
{
    static char bytes[1 << 20];
    char path[4096];
    int files, size, folder;

    if (count != 4)
        return 2;
    files = atoi(words[2]);
    size = atoi(words[3]);
    if (size < 0 || size > (int)sizeof bytes || mkdir(words[1], 0777) != 0)
        return 2;
    for (int i = 0; i < files; i++) {
        snprintf(path, sizeof path, "%s/F%05d", words[1], i);
        int file = open(path, O_WRONLY | O_CREAT | O_EXCL, 0666);
        if (file < 0 || write(file, bytes, size) != size || fsync(file) != 0 || close(file) != 0)
            return 1;
    }
    folder = open(words[1], O_RDONLY);
    return folder < 0 || fsync(folder) != 0;
}
