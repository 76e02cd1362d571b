int version(void);

int main(void)
{
    return version() == 7 ? 0 : 1;
}
